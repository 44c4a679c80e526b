# Patches a copy of the original so that its lines are `Carried` (carried.rs): each line goes through the passes together with the
# lines of the input that came into it. What is dropped is dropped with them; nothing else of the original changes. rustc refuses
# the copy where a pass would make a line from text alone.
s/&\[String\]/\&[Carried]/
s/lines: &mut Vec<String>/lines: \&mut Vec<Carried>/
s/rewritten: HashMap<usize, String>/rewritten: HashMap<usize, Carried>/
# the lines of the input, and those of the result before they are joined
s/lines: Vec<String> = text\.lines()\.map(str::to_string)\.collect();/lines = carried_lines(text);/
s/let mut out = lines\.join(/keep_carried(\&lines); &/
# a line that is printed anew stays the line that it was
s/out\.push(r\.clone());/out.push(l.printed(r.clone()));/
s/\(out\|with_decls\)\.push(\(format!(.*)\));/\1.push(l.printed(\2));/
# the next line takes a forwarded value in, a call line the value of a line above it
s/if let Some((_, reg, rhs)) = forward\.get(&i)/if let Some((taken, reg, rhs)) = forward.get(\&i)/
s/cur = replaced;/cur = cur.taking(\&lines[*taken], replaced);/
s/cur = next;/cur = cur.taking(\&prev_text, next);/
