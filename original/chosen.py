"""Requests chosen by hand for the fixed vectors: by function, each a text, or (text, number, second text)."""

WHITE = [*range(9, 14), 32, 133, 160, 5760, *range(8192, 8203), 8232, 8233, 8239, 8287, 12288]
# the neighbours of those ranges, and three that only look like white space
NOT_WHITE = [
    8, 14, 31, 33, 132, 134, 159, 161, 5759, 5761, 8191, 8203, 8231, 8234, 8238, 8240, 8286, 8288, 12287, 12289, 6158, 65279,
]
SPACED = [
    "", "a", " ", "\t \u3000", " a ", "\u3000a b\u3000", "a \u00a0\u0085", "\u2028 a", "\u200ba\u200b", " \u200b ", "é",
    " é\u3000", "\u3000é",
]
ENDS = [
    "", "\n", "\n\n", "a", "a\n", "a\r\n", "a\r", "a\r\r\n", "\r\n", "\r", "a\n\n", "a\n\nb", "a\r\nb\r", "a\rb\n", "\n\r\n",
    "a\u2028b\n", "a\x0bb\n", "a\u0085b", "\r\r", "é\r\n",
]
GOOD_UTF8 = [
    "", "00", "41", "7f", "c280", "dfbf", "e0a080", "e18080", "ecbfbf", "ed8080", "ed9fbf", "ee8080", "efbfbf", "f0908080",
    "f1808080", "f3bfbfbf", "f48fbfbf",
]
BAD_UTF8 = [
    "80", "bf", "c0", "c080", "c1bf", "c2", "c241", "c2c0", "df", "e0", "e080", "e08080", "e09fbf", "e0a0", "e0a041", "e0c080",
    "e1", "e180", "e18041", "e141", "eda080", "edbfbf", "ed9f", "ee80", "efbf", "efbfc0", "f0", "f080", "f0808080", "f08fbfbf",
    "f090", "f09080", "f0908041", "f09041", "f1808041", "f3bfbf", "f4", "f48f", "f48fbf", "f4908080", "f4bfbfbf", "f5",
    "f5808080", "f7bfbfbf", "f888808080", "fe", "ff", "41c2", "e3808041ff", "6162e380", "c3a9ed", "f09f9880f0",
]
DIGITS = [
    "0", "7", "007", "00", "", "1x", "x1", " 1", "1 ", "+1", "-1", "1_0", "\u0663", "18446744073709551615",
    "18446744073709551616", "018446744073709551615", "0000000000000000000000000000000000000001", "99999999999999999999999",
    "18446744073709551614", "9223372036854775808",
]
VALUES = [
    "", " ", "r1", "r007", "r18446744073709551616", "undefined", "null", "true", "false", "NaN", "Infinity", "nullx", "1", "-1",
    "-", "-x", "0x10", "0xff", "1.5e-3", "1n", '"a"', "'a'", '"', '""', '"a\'', '"a" + f() + "b"', '"http://x"', "`a`", "[]",
    "[1]", "[1,]", "[,1]", "[1, f()]", "[[a], [1, [r2]]]", "[(a, b)]", "[a], [b]", "[ ]", "[1", "a", "$a_1", "1a", "a.b",
    "a /* c */", "a // c", "a\u3000/*c*/", "\u3000a", "a\u3000", "/* c */ 5", "/* open", "a /*/ b */", "é", "[é]", "[\"é\"]",
    "\t1\x0b",
]
# where strict mode parts from plain mode, or might be thought to
QUOTED = [
    '["http://x", \'a//b\']', '[["a", [b, "/*"]], 1]', '["a,b"]', '"a\\""', '"a\\"', '"a\\\\"', '"a" /* c */', '"a" // c', "'a\" + f() + \"b'",
    '"a" + `/*` + f() /* */ + "b"', '"a" f() "b"', "'a' + f() + 'b'", "'a\\''", '"/*" + f() + "*/"', '/* " */ 1', '"a"b', '"a\'', '[`a`]', "['a' + f() + 'b']",
    '["a" /* ] */]', '"é"', '"a"\u3000/*c*/', '"//', "a //'", '`"`', '"\\\\" + f() + "b"', '["a", "b",]', '[,"a"]', '[""]',
]
LEXICAL = [
    'a = "}" ; // {', "/* { */ a", "/* open {", "/*/ a */ b", "'a\\'}' {", '"open {', "`}${a}` {", "a = /}/ {", "a / b / {",
    "(/[/]}/) {", "= /[", "= /\\//g {", "a\\", "'\\", "", "/a/ b", "\u3000/a/", ") /a/ {", "} /a/ {", "é 'é' é", "a //", "a/",
    "/", "/*", "a /**/ b", '"a" /b/',
]
# four notions of place: quotes, `} {`, a header among inner lines, U+3000 before a let
PLACES = """\
function f(a) {
  if (a) {
    while (x) {
      r0 = "}";
    }
  } else {
    b = {
    };
  }
}
let r0;
let phi1;
} {
 for (;;) {
\u3000let r1;
}}
var x
class C {
"""
# a store that is dead, read, stored in another block, in a loop, by its own value, below a header; loads for a call
DROPS = [
    "", "r0 = 1;\n", "r0 = 1;\nr0 = 2;\nuse(r0);\n", "r0 = 1;\nr0 = r0;\n", "r0 = 1;\nif (a) {\nr0 = 2;\n}\nuse(r0);\n",
    "r0 = 1;\nvar x = r0;\n", "var x;\nr0 = 1;\nlet r0;\nuse(r0);\n", "while (a) {\nr0 = 1;\n}\n", "r0 = r0;\n", "r0 = f();\n",
    "r007 = 1;\nr7 = 2;\n", "r0 = 1;\n// r0\n", "r1 = a.b;\na.b();\n", "r1 = a.b;\nuse(r1);\na.b();\n", 'r0 = "a" + f() + "b";\n',
    "r18446744073709551615 = 1;\nr18446744073709551616 = 2;\n", "{\nr0 = 1;\n}\n{\nr0 = 2;\n}\n", "r0 = 1;\n}\nr0 = 2;\n{\nr0 = 3;\n",
]
INLINED = ["a", "a.b", "f(x)", "-1", "a + b", '"a + b"', "", "{}", "new C", "a, b", "(a + b)", "typeof a", " a "]

BY_HAND = {
    1: [w + "a" + w for w in map(chr, WHITE)] + [c + "a" + c for c in map(chr, NOT_WHITE)] + SPACED,
    2: SPACED,
    3: SPACED,
    4: [bytes.fromhex(h) for h in GOOD_UTF8 + BAD_UTF8],
    5: ENDS,
    6: [(t, keep, "") for t in ENDS[:13] for keep in (0, 1)],
    7: ENDS[:8] + ["a\n" * 1024, "a\n" * 1025, "\n" * 1024 + " "],
    8: [
        "", "[" * 64, "[" * 65, "a\n" + "[" * 65, "[" * 33 + "\n" + "[" * 32, "[" * 33 + "\r" + "[" * 32,
        '"' + "[]" * 65 + '"\r\n', "[" * 64 + "\n" + "[" * 70,
    ],
    9: ["r" + d for d in DIGITS] + ["", "R1", "rr1", "1", "phi1", "\u3000r1"],
    10: ["phi" + d for d in DIGITS] + ["", "Phi1", "phiphi1", "ph1", "r1"],
    11: ["t" + d for d in DIGITS] + ["", "T1", "tt1", "1"],
    12: [
        "let r1,;", "r0 => x;", "r1 == r2;", "let r0;", "let r007, r1;", "let r0,r1 ,\u3000r2;", "let r0 ;", "let  r0;", "let ;",
        "let r0", "let\tr0;", "let\u3000r0;", "letr0;", "let r0 = 1;", "let r0, x;", "let r18446744073709551615;",
        "let r18446744073709551616;", "\u3000let r0;\u3000", "r0 = 1;", "r0=1;", "r0 = ;", "r0 =;", "r0 != 1;", "r0 <= 1;",
        "r0 = = 1;", "r0 === 1;", "x = 1;", "r0 += 1;", "\u3000r0\u00a0=\u2028a\u0085;\u3000", "r0 = a;;", "r0 = a; // c",
        "r0 = a", "r0 = a\u200b;", "\u200br0 = a;", ";", "=;", "= 1;", "", "r007 = r1 = 2;", "r0\r = 1;\r",
        "r18446744073709551616 = 1;", "r0 = \"a;b\";",
    ],
    13: [
        ("use(r1, r1, r007)", 1, ""), ("use(r1, r1, r007)", 7, ""), ("r1 = r1 + r2;", 1, ""), ("r1 = r1 + r2;", 2, ""),
        ("let r1;", 1, ""), ('"r1" r1x xr1 $r1 r1_', 1, ""), ("ér1é\u3000r1", 1, ""), ("r1 == r1;", 1, ""),
        ("r18446744073709551615", 2**64 - 1, ""), ("r18446744073709551616", 0, ""), ("", 0, ""), ("r0", 0, ""), ("// r3", 3, ""),
    ],
    14: [
        ("use(r007)", 7, "x"), ("x = -r1;", 1, "-2"), ("r1.x", 1, "5"), ("r1 + r1", 1, "a"), ("r10 + r1", 1, "a"),
        ("xr1", 1, "a"), ("r1", 1, ""), ("+r1", 1, "+a"), ("+r1", 1, "-a"), ("- r1", 1, "-2"), ("r1 .x", 1, "5"),
        ("r1.x", 1, "a5"), ("r1.x", 1, "a"), ("r1.x", 1, "\uff15"), ('"r1"', 1, "a"), ("r1r1 r1", 1, "z"), ("r1$", 1, "a"),
        ("ér1é", 1, "-"), ("r18446744073709551615", 2**64 - 1, "a"), ("--r1", 1, "-"), ("r1.", 1, ""), ("r11 r1 r111", 1, "b"),
        ("r1", 2, "a"), ("", 1, "a"), ("-r1.x", 1, "-5"), ("x = r0;", 0, "é"),
    ],
    15: [
        (t, 1, "") for t in (
            "new r1(a)", "new  r1", "renew r1", "newr1", "new\u3000r1 = 1", "r1++", "r1 --", "r1 = 2", "r1 == 2", "r1 === 2",
            "r1 += 2", "r1 => 2", "r1", "r1 r1", "x", "r1\u3000= 1", "(r1 - 1)", "r1 -- 2", "new (r1)", "r01", "xr1 r1",
        )
    ],
    16: [
        (t, 0, n) for t, n in (
            ("phi1 + phi1", "phi1"), ("phi10 phi1", "phi1"), ("phi1phi1 phi1", "phi1"), ("$phi1", "phi1"), ("éphi1é", "phi1"),
            ("aaa aa", "aa"), ("a.a", "a"), ("t07 t7", "t7"), ("", "a"), ("phi007", "phi7"), ('"a" a', "a"), ("a", "ab"),
            ("é é", "é"), ("a.b a.b", "a.b"),
        )
    ],
    17: [
        (t, 0, n) for t, n in (
            ("use(r10, r1)", "r1"), ("r10", "r1"), ("xa", "a"), ("xa a", "a"), ("a1 _a a", "a"), ("", "a"), ("aa", "a"),
            ("éaé", "a"), ("console.log", "log"), ("b.a", "b"), ("abab ab", "ab"),
        )
    ],
    18: ["", "a", "_", "$", "1", "a1", "a.b", "r1", "é", "aé", "a b", " a", "$1_", "a-"],
    19: ["".join(map(chr, range(128))), "", "é\u3000", "azAZ09_$@[`{/:"],
    20: [
        "a /* b */ c", "a // b", "/* open", "a /*/ b", "/**/", '"http://x"', "é /* é */ é", "a / b", "/", "/*a*//*b*/c", "*/",
        "a/*b*//c",
    ],
    21: VALUES + QUOTED,
    22: LEXICAL,
    23: [
        "1", "r7 === 1", "a = b", "a == b", "a != b", "a <= b", "a >= b", "f()", "a.b", "a[0]", '"f()"', "1.5", "=", "a =", "= a",
        "a => b", "", "/(/", "a += 1", "a === b === c",
    ],
    24: ["a r1 r1x r b1 1a", '"s" a.b /* c */ d', "é \u0161 \u0141a", "r", "_ $", "", "1r2 a1", "S", "r\u0130"],
    **{f: [PLACES, "", "}", "}\n{\n}\n", "do {\n x do {\n}\na: for (\n{", "a = {\r\nb\r\n}"] for f in (25, 26, 27, 28)},
    29: [(PLACES, n, "") for n in range(0, 18, 3)]
    + [
        ("if (x)\n\n// c\nr0 = 1;", 3, ""), ("if (x)\n", 1, ""), ("a: // b\n", 1, ""), ('"a;\n', 1, ""), ("", 0, ""), ("\n\n", 2, ""),
    ],
    30: [
        "while (a) {", "while(a)", "for (;;)", "for(;;)", "if (a)", "if(a)", "switch (a) {", "switch(a)", "do {", "a: while (b)",
        "a: for (b)", "} else if (a) {", "whilex (", " if (a)", "do{", "else if (a)",
    ],
    31: [(value, new, "") for value in INLINED for new in (0, 1)],
    32: ["a", "a.b.c", "a.", ".a", "", " a ", "a.1", "r1", "a b", "$._", "\u3000a\u3000", "a..b"],
    33: [
        "a", "f(x)[0].y", "-a", "a + b", '"a + b"', "'a\\' + b'", "(a, b)", "[a, b]", "{}", "typeof a", "typeofa", "yielda",
        "functiona", "classy", "async a", "asynca", "", " ", "a)+(b", "`a", "a;", "?", "a ? b : c", "/a/",
    ],
    34: [
        ("r6", 0, "r6 = f();\n"), ("r6", 0, "r5 = f();\n"), ("x + 1", 0, "r5 = x = 1;\n"), ("x", 0, "r5 = x++;\n"),
        ("x", 0, "r5 = ++x;\n"), ("x", 0, "x = 1;\n"), ("x", 0, "r5 = xx = 1;\n"), ("a", 0, ""), ('"x"', 0, "r5 = x = 1;\n"),
        ("r007", 0, "r7 = 1;\n"), ("x", 0, "r5 = x=1;\n"), ("r5", 0, "r5 = f(); // a\n"),
    ],
    35: [
        "r1 = r2.log;\nr2.log(r3);\n", "r1 = r2.log;\nr2 = a;\nr2.log();\n", "r1 = a.b;\nuse(r1);\na.b();\n",
        "r1 = a.b;\nr1 = 2;\na.b(r1);\n", "r1 = a.b;\nvar x;\na.b();\n", "r1 = a.b;\nuse(a);\na.b();\n",
        "r1 = a.b;\nuse(ab);\na.b();\n", "r1 = a.b.c;\na.b.c();\n", "r1 = a.b;\nr2 = a.b(1);\n", "r1 = a.b;\n",
        "r1 = a.b;\nxa.b();\n",
    ],
    36: VALUES[:12],
    37: VALUES + QUOTED,
    **{f: [(t, mode, "") for t in DROPS for mode in range(4)] for f in (38, 39)},
}


def bytes_of(text):
    return text if isinstance(text, bytes) else text.encode()


def requests():
    """Every chosen request: function, number, a, b."""
    for function, texts in BY_HAND.items():
        for each in texts:
            a, number, b = each if isinstance(each, tuple) else (each, 0, "")
            yield function, number, bytes_of(a), bytes_of(b)
