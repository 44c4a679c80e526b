//! The grammar of made listings: names of rules and their alternatives, each as likely as the next.
//! `#name` stands for a rule, `#A` (one capital) for what the fragment has chosen once for that rule.
//! The first alternative of a rule ends it: it is taken where the text has grown deep or long.

/// The capitals and the rules that they are chosen by, anew for each fragment.
pub const CHOSEN: &[(char, &str)] = &[
    ('A', "reg"), ('B', "reg"), ('C', "reg"), ('P', "phi"), ('Q', "phi"), ('T', "temp"), ('U', "temp"),
    ('N', "name"), ('M', "name"), ('I', "indent"), ('D', "regdigits"), ('O', "odd"),
];

pub const RULES: &[(&str, &[&str])] = &[
    // names
    ("digit", &["0", "1", "2", "3", "7", "9"]),
    ("reg", &["r0", "r1", "r2", "r3", "r4", "r0", "r1", "r2", "r3", "r4", "r5", "r6", "r7", "r10", "r11", "#oddreg"]),
    ("oddreg", &[
        "r7", "r007", "r01", "r00", "r10", "r1#digit", "r18446744073709551615", "r18446744073709551616", "r018446744073709551615",
        "r18446744073709551614", "r9223372036854775808", "r4294967296", "r99999999999999999999", "r", "r1x", "R1", "r-1", "r+1",
        "r1_0",
    ]),
    ("regdigits", &["0", "1", "2", "3", "7", "10"]),
    ("phi", &["phi0", "phi1", "phi2", "phi0", "phi1", "phi2", "phi3", "phi7", "#oddphi"]),
    ("oddphi", &[
        "phi7", "phi007", "phi", "phi1x", "phi01", "phi18446744073709551615", "phi18446744073709551616", "Phi1", "phi+1",
    ]),
    ("temp", &["t0", "t1", "t2", "t0", "t1", "t2", "t3", "#oddtemp"]),
    ("oddtemp", &["t7", "t07", "t", "t00", "t99999999999999999999999", "T0", "t1x", "tt"]),
    ("name", &[
        "a", "b", "x", "f", "g", "use", "console", "log", "O", "_x", "$", "$1", "x1", "new", "rr", "r", "greet", "a", "x", "a_b",
        "a$", "_", "r1x",
    ]),
    ("anyname", &["#name", "#reg", "#phi", "#temp", "#oddreg", "#oddphi", "#oddtemp"]),

    // white space, and three that look like it and are not
    ("indent", &["  ", "  ", "  ", "    ", "", "", "", "\t", "#oddws", "  #oddws"]),
    ("oddws", &[
        "\u{3000}", "\u{a0}", "\u{85}", "\u{2028}", "\u{2029}", "\u{1680}", "\u{2000}", "\u{200a}", "\u{2005}", "\u{202f}",
        "\u{205f}", "\u{b}", "\u{c}", "\r", "\t", "\u{200b}", "\u{feff}", "\u{180e}", "\u{1c}", "\u{1f}", "\u{0}",
    ]),
    ("ws", &["", "", " ", " ", "  ", "#oddws", "#oddws #oddws"]),
    // some have a name byte as their low 8 bits, which is what ident_words looks at
    ("odd", &[
        "é", "\u{3000}", "ā", "š", "ů", "ş", "Ĥ", "İ", "ı", "Ⅰ", "日本", "\u{10ffff}", "\u{1f600}", "\u{730}", "\u{d7ff}", "\u{e000}",
    ]),

    // comments
    ("comment", &[
        "/* c */", "/*}*/", "/*{*/", "// c", "//", "/**/", "/* #reg */", "/* open", "/*/", "/* a */ /* b */", "/* #odd */", "/*",
        "// { #reg", "/* ; */", "*/", "/* \" */", "/***/",
    ]),

    // values
    ("num", &[
        "0", "1", "5", "42", "-1", "-2", "1.5", "0x10", "0xff", "1e9", "1_000", "-x", "-", "+1", "1n", "1e-3", "-0", "--1", "00",
        "9.", ".5", "1+1", "2-r1",
    ]),
    ("word", &["undefined", "null", "true", "false", "NaN", "Infinity", "nullx", "True", "this"]),
    ("str", &[
        "\"a\"", "'b'", "\"\"", "''", "\"a\" + f() + \"b\"", "\"http://x\"", "\"}\"", "'{'", "\"", "'", "'a\\'b'", "\"\\\\\"",
        "\"#reg\"", "\"'\"", "'\"'", "\"a\\\"", "\"[\"", "\"a'", "\"/* #reg */\"", "\"#odd\"", "\"=\"", "\";\"", "'\\", "\"a;",
    ]),
    ("tpl", &["`a`", "`${#reg}`", "`}`", "`", "`a\\``", "`{`", "`a ${b} #odd`"]),
    ("pattern", &[
        "/a/", "/}/", "/[/]/", "/[/]}/g", "/\\//", "/[\\]/]/", "/[", "/a", "/{/.test(#reg)", "/\"/", "/[]/]/", "/\\", "/'/g",
    ]),
    ("array", &[
        "[]", "[#reg]", "[#val]", "[#val, #val]", "[#val,]", "[,#val]", "[ #array , #val ]", "[(#reg)]", "[{}]", "[#expr]",
        "[#comment #val]", "[#odd]", "[[#val], [#val]]", "[\"#odd\", #val]", "[1, 2", "1]", "[#val]]", "[a], [b]", "[ ]", "[,]",
        "[#val, #ws]", "[#ws#val#ws]", "[f(a, b)]", "[)]", "[(]", "[(a, b), c]", "[}, a]",
    ]),
    ("val", &[
        "#reg", "#reg", "#num", "#str", "#word", "#name", "#array", "#ws#val#ws", "#val #comment", "#comment #val", "#odd",
    ]),
    ("call", &[
        "f()", "#name(#args)", "#reg(#args)", "#name.#name(#args)", "#reg.#name(#args)", "new #reg(#args)", "new #name(#args)",
        "#name(#reg)", "#name(#reg, #reg)", "new  #reg(#args)", "new#ws#reg", "renew #reg(a)", "#name(#A)", "#name(#A, #B)",
    ]),
    ("args", &["", "#reg", "#reg, #reg", "#val", "#expr", "#expr, #expr", "#A", "#B, #A"]),
    ("member", &[
        "#name.#name", "#reg.#name", "#reg.1", "#name.#name.#name", "#reg.", ".#name", "a.1b", "#reg .x", "#name[#reg]",
    ]),
    ("op", &[
        "-#reg", "+#reg", "- #reg", "#reg-#reg", "#reg+#reg", "#reg - -#reg", "!#reg", "~#reg", "#expr + #expr", "#expr, #expr",
        "#expr === #expr", "#reg == 1", "#reg <= #val", "#reg >= #val", "#reg != #val", "#name = #expr", "#name=#val", "= #val",
        "a => #expr", "#reg++", "++#reg", "#reg--", "#name++", "++#name", "#reg = #val", "#reg ? #expr : #expr", "(#expr)",
        "typeof #expr", "void #reg", "delete #reg", "await #reg", "yield #reg", "yieldx", "function () {}", "functionx",
        "class {}", "classy", "async #reg", "{ a: #expr }", "{}", "(#reg)", "#reg / 2 / #reg", "#reg % 2", "#reg < #reg",
        "#reg > 1", "a & b", "a | b", "a ^ b", "a * b", "a ? b", "!a", "#phi", "#phi + #phi", "#temp", "#temp + #temp",
        "#reg#oddws", "a #odd",
    ]),
    ("expr", &[
        "#val", "#val", "#val", "#call", "#call", "#member", "#op", "#op", "#tpl", "#pattern", "#expr #comment", "#comment #expr",
        "#A", "#B", "(#expr)", "#ws#expr#ws",
    ]),
    ("unary", &[
        "typeof a", "void 0", "delete a.b", "await f()", "yield a", "yieldx", "function () {}", "functionx", "class {}",
        "async a", "typeof", "-a", "{}", "?", "",
    ]),
    ("phival", &[
        "#val", "#op", "#expr", "#P", "#Q", "#Q = #expr", "#phi = #val", "#P + 1", "#reg === #val", "f(#reg)", "a.b", "a != b",
        "#reg <= 1", "a >= #reg", "a < b", "#reg !== 1", "a == b", "a = b", "=", "= a", "a =", "a<=b", "a[0]", "\"(\" + a",
        "a /* ( */", "a => b",
    ]),
    ("cond", &["x", "#reg", "#reg < 3", "#expr", "f(#reg)", "#name(#A)"]),

    // single lines
    ("regs", &[
        "#reg", "#A", "#A, #B", "#A, #B, #C", "#reg, #reg", "#A,#B", "#A,#B,#C", "#ws#reg#ws,#ws#reg#ws", "#A,", ",#A", "#A, x",
        "#A, #A", "#oddreg, #A", "#reg, #reg, #reg, #reg", "", "#oddreg",
    ]),
    ("phis", &[
        "#P", "#P, #Q", "#P, #Q", "#phi,#phi", "#P, x", "#ws#phi#ws, #P", "#oddphi, #P", "#P, #A", "#P, #P", "#P, #Q, #phi",
    ]),
    ("temps", &["#T", "#T, #U", "#T, x", "#ws#T#ws,#U", "#oddtemp, #T", "#T, #A", "#T,#U,#temp", "#T = 1"]),
    ("plain", &[
        "use(#A);", "#name(#args);", "return #expr;", "return #A;", "#expr;", "use(#A, #B);", "#A.#N(#B);", "x = #expr;",
        "throw #A;",
    ]),
    ("decl", &[
        "let #regs;", "let #regs;", "let  #regs;", "let #regs ;", "let #regs", "var #regs;", "let\t#regs;", "let #regs;#ws",
    ]),
    ("store", &[
        "#A = #val;", "#A = #expr;", "#reg = #expr;", "#B = #A;", "#A = #call;", "#A=#val;", "#A =#expr;", "#ws#A#ws=#ws#val#ws;",
        "#A == #val;", "#A => x;", "#A = #val", "#A += #val;", "#A = #A + 1;", "#A = ;", "#A =;", "#A = #val; #comment",
        "#A = #val ;", "#A = #member;", "#A != #val;", "#A >= #val;", "#A = #val;;", "#A = #N.#M;",
    ]),
    ("phiset", &[
        "#P = #phival;", "#P = #phival;", "#Q = #phival;", "#phi=#phival;", "#P = #phival; ", "#P == #val;", "#P = #phival",
        "#ws#P#ws= #val;",
    ]),
    ("tempset", &[
        "#T = #val;", "#T = #val;", "#U = #T;", "#temp = #expr;", "#T = f(#U);", "#T=#val;", "#T = #T + 1;", "#oddtemp = #val;",
        "use(#T);", "x#T = 1;",
    ]),
    ("header", &[
        "function f(a) {", "function g(#reg) {", "var x;", "var X = class {", "let x;", "const c = 1;", "class C {", "let #regs;",
        "let phi1;", "let #phis;", "var x = f(#reg);", "const #N = #call;", "function", "let", "letx;", "class C { }",
        "let phix;", "let x = #name(#reg);",
    ]),
    ("globals", &[
        "__runtime.DeclareGlobals(#expr);", "__runtime.DeclareGlobalsForInterpreter(#expr);", "__runtime.DeclareGlobals (1);",
        "x__runtime.DeclareGlobals(1);", "__runtime.DeclareGlobalsForInterpreter", "__runtime.DeclareGlobals(",
    ]),
    ("opener", &[
        "if (#cond) {", "while (#cond) {", "while(#cond) {", "for (;;) {", "for(;;) {", "do {", "a: while (#cond) {",
        "a: for (;;) {", "try {", "} else {", "} else if (#cond) {", "} catch (e) {", "} finally {", "switch (#cond) {",
        "switch(#cond) {", "{", "if(#cond) {", "x = function () {", "x do {", "while (#cond) { }", "for (;;) {}", "case 1: {",
        "}} else {{", "b = {", "} {", "if (#cond) { }", "x: do {", "while (#cond)  {", "else {", "do { f(#reg);", "do { f(#A); {",
    ]),
    ("closer", &["}", "}", "}", "};", "})", "}}", "} // {", "} while (#cond);", "x }", "}, 1);", "\"}\"", "} }"]),
    ("bare", &[
        "if (#cond)", "else", "for (;;)", "while (#cond)", "if (#cond) #A = f();", "if (#cond) use(#A);", "a:", "case #reg:", "x",
        "x,",
    ]),
    ("blank", &["", "", " ", "\t", "#oddws", "#comment", "  // c", "/* c */"]),
    ("line", &[
        "#I#plain", "#I#plain", "#I#store", "#I#store", "#I#store", "#I#decl", "#I#phiset", "#I#tempset", "#header", "#I#globals",
        "#I#opener", "#I#closer", "#I#bare", "#I#blank", "#I#plain #comment", "#I#store#ws", "#Ilet #phis;", "#Ilet #temps;",
    ]),

    // fragments: lines that belong together, so that the rules of the passes are met on purpose
    ("frag", &[
        "#line", "#line", "#line\n#line", "#line\n#line\n#line", "#decls", "#forward", "#forward", "#dead", "#scratch",
        "#scratch", "#phifrag", "#phifrag", "#tempfrag", "#tempfrag", "#callfrag", "#callfrag", "#callfrag", "#callfrag",
        "#callfrag", "#bind", "#bind", "#block", "#block", "#function", "#barefrag", "#slashfrag", "#headfrag",
    ]),
    ("decls", &[
        "#Ilet #regs;\n#I#A = #val;", "#Ilet #A, #B;\n#Iuse(#A);", "#Ilet #A;\n#Ilet #A, #B;\n#I#B = #expr;",
        "#Ilet r00#D, #A;\n#Iuse(r#D);", "#I#A = 1;\n#Ilet #A,#B,#C;\n#Iuse(#C);", "let #A;\nuse(#A);\nlet #B;\nuse(#A);",
        "#Ilet #A, #B;", "  let #A;\nvar x;\n  use(#A);", "#Ilet #A;\n#Iuse(#A$, _#A);", "#Ilet #A;\n#Iuse($#A, #A_, #Aa);",
        "#Ilet #A;\n#I\"#A\" // é",
    ]),
    ("forward", &[
        "#I#A = #val;\n#Iuse(#A);", "#I#A = #val;\n#I#B = #A;\n#Iuse(#B);", "#I#A = #val;\n#I#B = #A;\n#I#C = #B;\n#Iuse(#C);",
        "#I#A = #val;\n#Iuse(#A, #A);", "#I#A = #val;\n#Iuse(#A);\n#Iuse(#A);",
        "#I#A = #val;\n#Iuse(#A);\n#I#A = #val;\n#Iuse(#A);", "#I#A = -2;\n#Ix = -#A;", "#I#A = 5;\n#I#A.x;",
        "#I#A = +1;\n#Ix = 1+#A;", "#I#A = #expr;\n#I#B = #A;", "#I#A = #val;\n#I#P = #A;", "#I#A = #val;\n#I#A = #A;",
        "#I#A = #val;\nvar x;\n#Iuse(#A);", "#I#A = #val;\n#Iuse(#A);\nvar x = #A;", "#Ir00#D = #val;\n#Iuse(r#D);",
        "#Ir#D = #val;\n#Iuse(r00#D);", "#I#A = #val;\n#Ix = -#A.y + \"#A\";", "#I#A = #val;\n#Iuse(#B);\n#Iuse(#A);",
        "#I#A = #array;\n#I#P = [#A];", "#I#A = #val;\n#I#T = #A;", "#I#A = #val;\n#Ilet #A;\n#Iuse(#A);",
        "use(#A);\n#I#A = #val;\n#Iuse(#A);", "#I#A = #N;\n#I#B = #A.log;\n#I#A.log();", "#I#A = #val;\n#Iuse(x#A, #A);",
        "#I#A = #val;\n#Ireturn #A", "#I#A = #val;\n#Iuse(#A0, #A);", "#I#A = #num;\n#Iuse(#A);", "#I#A = #num;\n#I#A.x;",
        "#I#A = #str;\n#Iuse(#A);", "#I#A = #array;\n#Iuse(#A);", "#I#A = #word;\n#Iuse(#A);", "#I#A = #val;\n#I#comment #A",
    ]),
    ("dead", &[
        "#I#A = #val;\n#I#A = #expr;\n#Iuse(#A);", "#I#A = #val;", "#I#A = #val;\n#I#A = #A + 1;\n#Iuse(#A);", "#I#A = #A;",
        "#I#A = #val;\n#Itry {\n#I#A = #val;\n#I} catch (e) {\n#I#A = #val;\n#I}\n#Iuse(#A);",
        "#I#A = #val;\nvar x;\n#I#A = 1;\n#Iuse(#A);", "#Iif (x) {\n#I  #A = #val;\n#I}\n#I#A = #expr;\n#Iuse(#A);",
        "#Iwhile (x) {\n#I#A = #val;\n#I}", "#I#A = #val;\n#I#B = #val;\n#I#A = #val;",
    ]),
    ("scratch", &[
        "#I#A = #B.log;\n#I#B.log(#C);", "#I#A = #N.#M;\n#I#N.#M(#reg);", "#I#A = #N.#M;\n#line\n#I#N.#M();",
        "#I#A = #B.#M;\n#I#B = 1;\n#I#B.#M();", "#I#A = #N.#M;\n#Iuse(#A);\n#I#N.#M();", "#I#A = #N.#M;\n#I#A = 1;\n#I#N.#M(#A);",
        "#I#A = #N.#M;\nvar x;\n#I#N.#M();", "#I#A = #N.#M;\n#I#N = 1;\n#I#N.#M();", "#I#A = #N.#M;\n#I#C = #N.#M(1);",
        "#I#B = #N;\n#I#A = #B.#M;\n#I#C = #expr;\n#I#B.#M(#C);", "#I#A = #N.#M.x;\n#I#N.#M.x();", "#I#A = 1.#M;\n#I1.#M();",
        "#I#A = #N.#M;\n#I#C = #val;\n#I#C = #N.#M();", "#I#A = #N.#M;\n#I#A = #N.#M();",
        "#I#A = #N.#M;\n#Ilet #A;\nvar y = #A;\n#I#N.#M();", "#I#C = #N;\n#I#A = #B.#M;\n#I#B.#M(#C);",
        "#I#A = #N.#M;\n#Iuse(x#N);\n#I#N.#M();", "#I#A = #N.#M;\n#Iuse(#N1);\n#I#N.#M();",
        "#I#A = #N.#M;\n#Ireturn #N\n#I#N.#M();", "#I#A = #N.#M;\n#Ilet #C;\n#I#N.#M();",
        "#I#A = #N.#M;\n#I#C = x#N + #N1;\n#I#N.#M();", "#I#A = #N.#M;\nuse(#B);\n#I#N.#M(#B);",
    ]),
    ("phifrag", &[
        "#Ilet #phis;\n#I#P = #phival;", "#I#P = #phival;\n#I#Q = #P;",
        "#Ilet #P, #Q;\n#I#P = #phival;\n#I#Q = #phival;\n#Iuse(#P);", "#I#P = #Q = #phi = #phival;",
        "#I#P = #Q = #expr;\n#I#Q = #P;", "#Iphi00#D = #phival;\n#Iuse(phi#D);", "#Iphi#D = #val;\n#Iuse(phi00#D);",
        "#Ilet phi00#D, #P;\n#Iphi#D = 1;", "#I#P = #phival;\n#I#P = #phival;\n#Iuse(#Q);", "#I#P = #P;",
        "#Ilet #P;\n#Ilet #P, #Q;\n#I#P = #val;\n#Iuse(#Q);", "let #P;\n#I#P = f();\n#I#P = a.b;\n#I#P = c[0];",
        "#I#P = #Q;\n#I#Q = #phi;\n#Iphi2 = 1;", "#Iphi0 = phi1 = phi2 = phi3 = phi4 = f();", "#Ilet #phis ;\n#I#P = #phival;",
        "#Ilet #P, x;\n#I#P = 1;", "#Ilet #P;\n#Iuse(#P);", "#Ilet #P;", "#I#P = #phival;\n#Iuse(x#P);",
        "#I#P = #phival;\n#Iuse(#P1);", "#I#P = #phival;\n#Ireturn #P", "#I#P = 1;\n#I#P\n#I$#P", "#I#P = #phival;",
        "#I#P = #phival;",
    ]),
    ("tempfrag", &[
        "#Ilet #T;\n#I#T = #val;", "#Ilet #temps;\n#I#T = #val;\n#Iuse(#T);", "#Ilet #T, #U;\n#I#T = #val;\n#I#U = #T;",
        "#I#T = #val;", "#Ilet t0#D;\n#It#D = 1;", "#Ilet t#D;\n#It0#D = 1;\n#It#D = 1;", "#Ilet #T;\n#I#T = #T;",
        "#Ilet #T;\n#I#T = f();", "#Ilet #T;\n#Ivar x = #T;\n#I#T = 1;", "#Ilet #T;\n#I#T = #array;\n#Ix#T = 1;",
        "#Ilet #T, #A;\n#I#T = #A;\n#I#A = 1;", "#I#T = #val;\n#Ilet #T;\n#I#T == #val;", "#Ilet #T;\n#I#T = #val\n#I#T = 1;",
        "#Ilet #T;\n#I#T = #val;\n#Ireturn #T", "#Ilet #T;\n#I#T = #val;\n#Iuse(x#T, #T0);",
        "#Ilet #T;\n#I#T = #val;\n#Iconst y = #T;",
    ]),
    ("callfrag", &[
        "#I#A = #expr;\n#Iuse(#A);", "#I#A = #expr;\n#I#B = #expr;\n#Iuse(#A, #B);", "#I#A = #expr;\n#I#B = #N(#A);\n#I#M(#B);",
        "#I#A = #call;\n#Ireturn f(#A);", "#I#A = #expr;\n#Inew #A(#B);", "#I#A = #call;\n#Inew #A(1);",
        "#I#A = f();\n#I#A = #A(1);\n#Iuse(#A);", "#I#A = f();\n#I#A++; g();", "#I#A = f();\n#I#A = g(#A);",
        "#I#A = f();\n#Iuse(#A);\n#Iuse(#A);", "#I#A = f();\n#Iuse(#A);\n#I#A = #A + 1;", "#I#A = f();\n#Iuse(#A);\nvar x = #A;",
        "#I#A = #B;\n#I#B = f();\n#Iuse(#A, #B);", "#I#A = x;\n#I#B = x = f();\n#Iuse(#A, #B);",
        "#I#A = x;\n#I#B = x++;\n#Iuse(#A, #B);", "#I#A = x;\n#I#B = ++x;\n#Iuse(#A, #B);",
        "#I#A = g(#N);\n#I#B = f(#M);\n#I#B(#A);", "#Iif (x)\n#I#A = f();\n#Iuse(#A);", "#Iif (x)\n#Iuse(#A);",
        "#I#A = f();\n#Iif (#A) {", "#I#A = f();\n#I{ use(#A);", "#I#A = f();\n#I}\n#Iuse(#A);", "#I#A = f();\n#I\n#Iuse(#A);",
        "#I#A = f();\n#I// c\n#Iuse(#A);", "#I#A = a;\n#I#B = g(#A);\n#I#C = b;\n#Ih(#C);\n#Iuse(#B);",
        "#I#A = a;\n#I#B = g(#A);\n#I#C = h(#B);\n#Iuse(#C);",
        "#I#A = 1;\n#I#B = g(#A);\n#I#C = 2;\n#I#A = h(#C);\n#Iuse(#B, #A);", "#I#A = -2;\n#If(-#A);",
        "#I#A = f();\n#If(\"#A\");", "#Ir00#D = f();\n#Iuse(r#D);", "#Ir#D = f();\n#Iuse(r00#D);", "#I#A = 5;\n#If(#A.x);",
        "#I#A = f();\nvar x = g(#A);", "#I#A = f();\n#I#A = g();\n#Iuse(#A);", "#I#A = f();\n#If(#A = 1);",
        "#I#A = f();\n#If(#A == 1);", "#I#A = f();\n#If(#A++);", "#I#A = f();\n#If(#A--);",
        "#I#A = f(1);\n#I#B = g(#A);\n#I#C = 1;\n#I#D(#C, #B);", "#I#A = 5;\n#I#B = g(h, #A);\n#Iuse(1);\n#Iuse(#B);",
        "#I#A = f();\n#Ireturn r#D(#A) + r00#D;", "#I#A = f();\n#Iuse(x#A, #A);", "#I#A = f();\n#Iuse(#A0, #A);",
        "#I#A = f();\n#Iuse(1) + #A", "#I#A = #N.#M;\n#Inew #A(#B);", "#I#A = _x.$y;\n#Inew #A();",
        "#I#A = #member;\n#Inew #A();", "#I#A = #N;\n#Inew #A(1);", "#I#A = ;\n#Inew #A();", "#I#A = ;\n#Iuse(#A);",
        "#I#A = #unary;\n#Iuse(#A);", "#I#A = #unary + f();\n#Iuse(#A);", "#I#A = #str;\n#Iuse(#A);", "#I#A = #tpl;\n#Iuse(#A);",
        "#I#A = #op;\n#Iuse(#A);", "#I#A = f(/\"/);\n#Iuse(#A);", "#I#A = f(/* ' */);\n#Iuse(#A, 'a');",
        "#I#A = r1x + #N;\n#I#B = f();\n#Iuse(#A, #B);", "#I#A = {;\n#Iuse(#A);", "#I#A = f(});\n#Iuse(#A);",
        "#I#A = f(\"{\");\n#Iuse(#A);", "#I#A = #num;\n#If(1+#A, #A1);",
        // the walk ends at a line that was absorbed by one that was itself absorbed
        "#Ir9 = z;\n#I#A = a;\n#I#B = f(#A);\n#I#C = g(#B);\n#Iuse(r9, #C);", "#Ir9 = z;\n#I#A = a;\n#I#B = f(#A);\n#Iuse(r9, #B);",
        // the line that is absorbed becomes a store only by what it absorbs
        "#I#C = b;\n#I#A = a;;\n#I#B = f(); // #A\n#Iuse(#B, #C);",
        "#I#C = x;\n#I#A = a;;\n#I#B = f(x = 1); // #A\n#Iuse(#B, #C);", "#I#A = f();\n#I#opener", "#I#A = f();\n#Ido { g(#A);",
        "#I#A = 1;\n#I#B = g(#A);\n#I#C = #N(#B);\n#Ireturn #M(#C);", "#I#A = #N;\n#I#B = #A.#M(#C);\n#Iuse(#B);",
        "#I#C = b;\n#I#A = #N;\n#I#B = #A.#M();\n#Iuse(#C, #B);",
    ]),
    ("bind", &[
        "#Ilet #A;\n#I#A = #expr;", "#Ilet #A, #B;\n#I#A = #expr;\n#I#B = #A;", "#Ilet #A;\n#Iif (x)\n#I#A = 1;",
        "#Ilet #A;\n#Iuse(#A);\n#I#A = 1;", "#Ilet #A;\n#I{\n#I#A = 1;\n#I}", "#Ilet #A;\n#I#A = 1;\n#I#A = 2;",
        "#Ilet #A;\n#Ilet #A;\n#I#A = 1;", "#Ilet #A, #A;\n#I#A = 1;", "#I#A = 1;\n#Ilet #A;", "#Ilet #A;\n#I#A = #A + 1;",
        "var x;\n  let #A;\n}\n  #A = 1;", "#Ilet #A;\n#Icase 1:\n#I#A = f();", "#Ilet #A;\n#I  \n#I#A = 1;",
        "#Ilet #A;\n#I// {\n#I#A = 1;", "#Ilet #A, #B, #C;\n#I#B = #expr;\n#Iuse(#B);", "#Ilet #A;\nvar y;\n#I#A = 1;",
        "#Ilet #A;\n#Ia = \"{\";\n#I#A = 1;", "#Ilet r00#D;\n#Ir#D = 1;", "#Ilet #A;\n#I}\n#I{\n#I#A = 1;",
        "#Ilet #A;\n#I#B = #A;\n#I#A = 1;", "#Ilet #A, #B;\n#I#B = f(#A);\n#I#A = 1;", "#Ilet #A;\n#I#bare\n#I#A = #expr;",
        "#Ilet #A;\n#line\n#I#A = #expr;",
    ]),
    // a slash after each character that makes it a pattern, and after some that do not
    ("before", &[
        "=", "(", ",", ":", "[", "!", "&", "|", "?", "{", "}", ";", "+", "-", "*", "%", "^", "~", "<", ">", ")", "]", "a", "1", "\"s\"",
        ".", "_", "@", "", "é", "#oddws",
    ]),
    // what ends a pattern, a quote or a comment, with a brace just inside or just after
    ("edge", &[
        "/\\/{/", "/[/{]/", "/[\\]{/]/", "/[/]{/", "/a/{", "/\\\\/{", "/[[]/{", "/[]{]/", "/]/{", "'\\'{'", "\"\\\\\"{", "`\\`{`", "'\"{'", "/*/{*/",
        "/**/{", "/* * /{*/", "/*{", "\"{", "/{", "//{", "'a'/{/", "a/{/", "/*c*//{/", "(/*c*//{/)",
    ]),
    ("slashfrag", &[
        "#Ilet #A;\n#Ix = a #before /{/;\n#I#A = 1;", "#I#A = f() #before /{/;\n#Iuse(#A);", "#I#A = a #before /\"/;\n#Iuse(#A);",
        "#I#P = a #before /(/;", "#I#P = a #before/./;", "#Ilet #A;\n#I#before/[}]/\n#I;\n#I#A = 1;", "#I#A = #before /{/;\n#Iuse(#A);",
        "#I#A = b;\n#I#B = f(b = 1) #before /c/;\n#Iuse(#A, #B);", "#I#A = a #before /b = /;\n#I#B = f(b = 1);\n#Iuse(#A, #B);",
        "#Ilet #A;\n#Ix = #edge;\n#I#A = 1;", "#I#A = f(#edge);\n#Iuse(#A);", "#I#P = #edge;",
    ]),
    // each operator between, each head above a block
    ("between", &["+", "-", "*", "/", "%", "<", ">", "=", "&", "|", "^", "~", "!", "?", ",", ":", ".", ";", "@", "in"]),
    ("head", &[
        "while (#A) {", "while(#A) {", "for (;#A;) {", "for(;#A;) {", "if (#A) {", "if(#A) {", "switch (#A) {", "switch(#A) {",
        "do { f(#A);", "a: while (#A) {", "a: for (;#A;) {", "} else if (#A) {", "x } else if (#A) {", "whilex (#A) {",
        "a : while (#A)", "if  (#A)", "a: while(#A)", "else if (#A) {", "do {f(#A)", "return while (#A)",
    ]),
    ("headfrag", &[
        "#I#A = f();\n#I#head", "#I#A = f();\n#I#head", "#I#A = a #between b;\n#Iuse(#A);", "#I#A = f() #between b;\n#Iuse(#A);",
        "#I#A = a#between;\n#Iuse(#A);", "#I#A = #O;\n#I#B = #O = f();\n#Iuse(#A, #B);", "#I#A = a#O;\n#I#B = a#O++;\n#Iuse(#A, #B);",
        "#I#A = #O + 1;\n#I#B = ++#O;\n#Iuse(#A, #B);", "#I#A = #Or1;\n#I#B = #Or1 = f();\n#Iuse(#A, #B);",
    ]),
    ("barefrag", &[
        "#I#bare\n#I#A = 1;", "#I#bare #comment\n#blank\n#line", "#I#bare\n#blank\n#I#plain", "#I#A = #expr\n#I#plain",
        "#line\n#I#bare\n#I#store\n#I#plain",
    ]),
    ("block", &[
        "#I#opener\n#line\n#I}", "#I#opener\n#frag\n#I#closer", "#Iwhile (#cond) {\n#frag\n#I}",
        "#Itry {\n#frag\n#I} catch (e) {\n#frag\n#I}", "#Iif (#cond) {\n#frag\n#I} else {\n#frag\n#I}",
        "#Ifor (;;) {\n#store\n#I}\n#frag", "#Ido {\n#frag\n#I} while (#cond);", "#frag\n#I}\n#frag",
        "#Ia = {\n#I  b: \"}\",\n#I};\n#frag",
    ]),
    ("function", &[
        "function f(a) {\n#line\n}", "function f(a) {\n  let #A, #B;\n#frag\n  return #A;\n}",
        "function f() {\n#frag\n}\nfunction g() {\n#frag\n}", "var x;\n#frag", "#header\n#frag\n#header\n#frag",
        "class C {\n#frag\n}", "#frag\nlet #A;\n#frag", "let phi1;\n#frag",
    ]),
];

/// Pieces of which soup is made: every test of the passes is near in some mixture of these.
pub const TOKENS: &[&str] = &[
    "let ", "r0", "r1", "r2", "r7", "r007", "phi0", "phi1", "t0", "t1", " = ", "=", "==", "!=", "<=", "=>", ";", ";", ";", ",",
    ", ", " ", " ", "\n", "\n", "\n", "\n  ", "(", ")", "[", "]", "{", "}", "f(", "use(", "new ", "-", "+", "++", "--", ".", ".x",
    "\"", "'", "`", "\\", "/", "//", "/*", "*/", "1", "-2", "a", "x", "if (", "while (", "for (", "} else {", "do {", "var ",
    "function ", "const ", "class ", "let phi", "return ", ": while (", "\r", "\r\n", "\u{3000}", "\u{a0}", "\u{85}", "\u{2028}",
    "\u{200b}", "é", "\t", "r18446744073709551615", "__runtime.DeclareGlobals(", "typeof ", "yield", "#", "0", "\"a\"", "[1]",
    "r0 = ", "r1 = r0;", "use(r0);", "let r0, r1;", "phi0 = r0;", "let t0;", "t0 = 1;",
];

/// Five small alphabets, of which all short texts are made in turn. Those of QUOTES are values: quotes, escapes, comment marks, brackets
/// and calls, by which strict mode parts from plain mode. Those of OPEN stand among lines: what opens and closes a template and a comment.
pub const CHARACTERS: &[&str] = &[
    "a", "r", "0", "=", ";", " ", "\n", "\r", "/", "*", "\"", "[", "]", ",", "{", "}", "(", ".", "-", "\\", "\u{3000}",
];
pub const WORDS: &[&str] = &[
    "r0", "r1", " = ", ";", "\n", "let ", "phi0", "t0", ", ", "f(", ")", "{", "}", "-", "\"", "new ", "//", "\r\n", ".x", "=",
    "[", "]",
];
pub const LINES: &[&str] = &[
    "let r0, r1;\n", "  let r0;\n", "r0 = a;\n", "  r0 = r1;\n", "r1 = r0;\n", "use(r0);\n", "use(r0, r1);\n", "r0 = f();\n",
    "r1 = r0.m;\n", "r0.m(r1);\n", "while (x) {\n", "}\n", "} else {\n", "if (r0)\n", "phi0 = r0;\n", "phi0 = phi1 = f();\n",
    "let phi0;\n", "let t0;\n", "t0 = r0;\n", "var x;\n", "\n", "// c\n", "x = -r0;\n", "r0 = -1;\n", "use(phi1, t0);\n",
    "r1 = g(r0);\n", "a = {\n",
];
pub const QUOTES: &[&str] = &["\"", "'", "`", "\\", "/", "//", "/*", "*/", "[", "]", ",", "f()", "1"];
/// A listing in which passes 1, 2 and 3 judge a value, `#`.
pub const JUDGED: &str = "let t0;\nt0 = #;\nr0 = #;\nphi0 = #;\nr1 = #;\nuse(r1);\n";

/// Pieces of values about quotes; shapes of such values, `#` being some of these pieces; lines of such values, each in the place of an `@`.
pub const LITERALS: &[&str] = &[
    "\"", "\"", "'", "'", "`", "\\", "\\", "//", "/*", "*/", "/", "*", "[", "]", ",", ", ", "f()", "1", "a", " ", " + ", "\\\"", "\\'", "\\\\",
    "\"a\"", "'b'", "`c`", "http://x", "/* c */", "[1]", "é", "\u{3000}", "(", ")", "r3",
];
pub const LITERAL_VALUES: &[&str] = &[
    "#", "\"#\"", "\"#\"", "'#'", "'#'", "`#`", "[#]", "[\"#\"]", "[\"#\", '#']", "[[\"#\", [#]], 1]", "\"#\" + f() + \"#\"", "'#' + f()", "\"#\" /* # */",
    "\"#\" // #", "/* # */ '#'",
];
pub const LITERAL_LINES: &[&str] = &[
    "r0 = @;", "r0 = @;\nuse(r0);", "r0 = @;\nuse(r0);", "r0 = @;\nr0 = @;\nuse(r0);", "r0 = @;\nphi0 = [r0, @];", "r0 = @;\nr1 = r0;\nuse(r1);", "let t0;\nt0 = @;",
    "let t0, t1;\nt0 = @;\nt1 = @;", "phi0 = @;", "let phi0;\nphi0 = @;",
];

pub const OPEN: &[&str] = &["`", "\\", "/*", "*/", "/", "*", "{", "}", ";", "\n", "\"", "a"];
/// A listing in which passes 4 and 6 ask for the blocks and the starts of statements below a text, `#`.
pub const PLACED: &str = "  let r0;\n{\n  let r1;\n#\n  r1 = f();\n  use(r1);\n}\n  r0 = 1;\n";

/// Pieces of lines about templates and block comments; lines of which some leave one open or close one, `#` being some of these pieces.
pub const OPEN_PIECES: &[&str] = &[
    "`", "`", "`", "`", "${", "}", "{", "}", "{", "/*", "/*", "*/", "*/", "*", "/", "/", " / 2", "//", "\\", "\\`", "\\\\", "\"", "'", ";", ";", ";",
    " ", " ", "a", "x = ", "(", ")", "[", "]", "S", ":", "é", "\u{3000}", "r0", "f()", "/`/", "/[`", "return ",
];
pub const OPEN_LINES: &[&str] = &[
    "x = `#", "x = `a", "  <b>{#</b>", "#", "#", "#;", "`#`", "`#`;", "#`;", "`;", "`", "}`;", "{`", "` + b;", "` / 2; # / 3;", "`/#/;", "`}", "`{", "` //", "` /*",
    "`\\", "`\\`", "`\\\\`;", "\\", "${", "${`", "`}`", "`${`{`}`;", "x = `a` + `b", "` + `", "`; x = `",
    "/* #", "/*", "/*/", "/**", "/* {", "x; /*", "x /* #", "*/", "*/ #", "# */", "#*/;", "**/", "*", "/", "/ {", "*/ /*", "*/ `", "` */", "*//", "*/ / 2; } x / 3;",
    "// `", "// /*", "\"`", "'`", "\"/*", "'#", "\"#\";", "return /`/;", "return /#/;", "x = /`/;", "x = /[`]/;", "x = a / `", "/`", "x = /\\`",
    "function f(a) {", "var x;", "let r0;", "class C {", "  let r0;", "  let r1;", "  let r0, r1;", "  let r0, r1, r2;", "{", "}", "{", "}", "} else {", "if (x)", "if (x) {", "a:", "",
    "  r0 = 1;", "  r0 = 1;", "  r1 = 2;", "  r0 = f();", "  r1 = g(r0);", "  use(r0);", "  use(r1, r0);", "  r0.m(r1);", "  r0 = `#;", "  r0 = `#`;", "  r1 = f(`#", "`);",
    "  r0 = 1; /* #", "  r0 = f(); //`", "  r1 = /*;", "  use(r0, `", "  use(r0); /*", "*/ use(r0);", "`; use(r0);", "phi0 = `#;", "let t0;", "t0 = `#;",
    "__runtime.DeclareGlobals(`#", "__runtime.DeclareGlobals(1); /*",
];
/// Listings around such lines, `@`. Most have registers of their own, so that these lines hide less of what becomes of them.
pub const OPEN_FRAMES: &[&str] = &[
    "@", "@@", "  let r5;\n@  r5 = 1;\n", "  let r5;\n@@  r5 = f();\n  use(r5);\n", "  let r5, r6;\n@  r5 = f();\n@  r6 = g(r5);\n  use(r6);\n",
    "  let r5;\n{\n  let r6;\n@  r6 = f();\n  use(r6);\n}\n  r5 = 1;\n", "  r5 = f();\n@  use(r5);\n", "@  r5 = f();\n  use(r5);\n@",
    "function f(a) {\n  let r5, r6;\n@  r5 = a;\n@  r6 = g(r5);\n  return h(r6);\n}\n", "{\n  let r5;\n@  r5 = 1;\n}\n", "  let r0;\n@@@  r0 = 1;\n@",
    "  let r5;\nx = `a {\n@`;\n  r5 = f();\n  use(r5);\n", "  let r5;\nx; /* {\n@*/\n  r5 = f();\n  use(r5);\n", "@  r5 = f(`{\n@`);\n  use(r5);\n",
    "  r5 = f(`{;\n  use(r5, `});\n@", "  r5 = f(); /* {;\n  use(r5); // */ }\n@",
];
