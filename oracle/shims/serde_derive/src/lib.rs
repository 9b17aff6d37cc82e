//! `derive(Serialize, Deserialize)` for the serde shim, as far as rand_distr's types need it: structs of any kind, and
//! enums whose variants are units or tuples. Attributes of serde are passed over.
use proc_macro::{Delimiter, TokenStream, TokenTree};

/// A type as its declaration has it.
struct Declared {
    name: String,
    /// Each parameter with its bounds.
    parameters: Vec<(String, String)>,
    /// What stands behind `where`, with a comma at its end.
    conditions: String,
    body: Body,
}

enum Body {
    /// The fields of a struct by name, or by number for a tuple.
    Struct(Vec<String>),
    /// The variants of an enum, and how many fields each has.
    Enum(Vec<(String, usize)>),
}

fn is_punct(token: Option<&TokenTree>, sign: char) -> bool {
    matches!(token, Some(TokenTree::Punct(p)) if p.as_char() == sign)
}

fn is_word(token: Option<&TokenTree>, word: &str) -> bool {
    matches!(token, Some(TokenTree::Ident(i)) if i.to_string() == word)
}

fn is_group(token: Option<&TokenTree>, delimiter: Delimiter) -> bool {
    matches!(token, Some(TokenTree::Group(g)) if g.delimiter() == delimiter)
}

fn inside(token: &TokenTree) -> Vec<TokenTree> {
    match token {
        TokenTree::Group(group) => group.stream().into_iter().collect(),
        _ => Vec::new(),
    }
}

fn text(tokens: &[TokenTree]) -> String {
    tokens.iter().cloned().collect::<TokenStream>().to_string()
}

/// The place behind attributes and a visibility.
fn behind_attributes(tokens: &[TokenTree], mut at: usize) -> usize {
    loop {
        if is_punct(tokens.get(at), '#') {
            at += 2;
        } else if is_word(tokens.get(at), "pub") {
            at += 1;
            at += usize::from(is_group(tokens.get(at), Delimiter::Parenthesis));
        } else {
            return at;
        }
    }
}

/// The parts between the commas that stand outside of angle brackets.
fn parts(tokens: Vec<TokenTree>) -> Vec<Vec<TokenTree>> {
    let mut found = Vec::new();
    let mut part = Vec::new();
    let mut depth = 0;
    for token in tokens {
        if let TokenTree::Punct(sign) = &token {
            match sign.as_char() {
                '<' => depth += 1,
                '>' => depth -= 1,
                ',' if depth == 0 => {
                    found.push(std::mem::take(&mut part));
                    continue;
                }
                _ => {}
            }
        }
        part.push(token);
    }
    if !part.is_empty() {
        found.push(part);
    }
    found
}

/// The parameters between angle brackets that open at a place, and the place behind them.
fn parameters(tokens: &[TokenTree], at: usize) -> (Vec<(String, String)>, usize) {
    if !is_punct(tokens.get(at), '<') {
        return (Vec::new(), at);
    }
    let mut end = at + 1;
    let mut depth = 1;
    while depth > 0 {
        depth += i32::from(is_punct(tokens.get(end), '<'));
        depth -= i32::from(is_punct(tokens.get(end), '>'));
        end += 1;
    }
    let found = parts(tokens[at + 1..end - 1].to_vec()).into_iter().map(|part| {
        let bounds = if part.len() > 2 { format!("{} +", text(&part[2..])) } else { String::new() };
        (part[0].to_string(), bounds)
    });
    (found.collect(), end)
}

/// The text behind `where` at a place up to the body or the end, and the place behind it.
fn conditions(tokens: &[TokenTree], at: usize) -> (String, usize) {
    if !is_word(tokens.get(at), "where") {
        return (String::new(), at);
    }
    let ends = |i: &usize| is_group(tokens.get(*i), Delimiter::Brace) || is_punct(tokens.get(*i), ';');
    let end = (at..tokens.len()).find(ends).unwrap_or(tokens.len());
    let found = text(&tokens[at + 1..end]);
    (format!("{},", found.trim_end().trim_end_matches(',')), end)
}

fn variants(tokens: Vec<TokenTree>) -> Vec<(String, usize)> {
    let of = |part: Vec<TokenTree>| {
        let at = behind_attributes(&part, 0);
        let fields = part.get(at + 1).map_or(0, |group| parts(inside(group)).len());
        (part[at].to_string(), fields)
    };
    parts(tokens).into_iter().map(of).collect()
}

fn declared(input: TokenStream) -> Declared {
    let tokens: Vec<TokenTree> = input.into_iter().collect();
    let at = behind_attributes(&tokens, 0);
    let is_enum = is_word(tokens.get(at), "enum");
    let name = tokens[at + 1].to_string();
    let (parameters, at) = parameters(&tokens, at + 2);
    let (mut found, mut at) = conditions(&tokens, at);
    let body = if is_enum {
        Body::Enum(variants(inside(&tokens[at])))
    } else if is_group(tokens.get(at), Delimiter::Brace) {
        let of = |part: Vec<TokenTree>| part[behind_attributes(&part, 0)].to_string();
        Body::Struct(parts(inside(&tokens[at])).into_iter().map(of).collect())
    } else if is_group(tokens.get(at), Delimiter::Parenthesis) {
        let fields = parts(inside(&tokens[at])).len();
        at += 1;
        // a tuple's conditions stand behind it
        found = conditions(&tokens, at).0;
        Body::Struct((0..fields).map(|i| i.to_string()).collect())
    } else {
        Body::Struct(Vec::new())
    };
    Declared { name, parameters, conditions: found, body }
}

/// The head of an implementation, up to its opening brace.
fn head(of: &Declared, lifetime: &str, implemented: &str) -> String {
    let bounded: Vec<String> =
        of.parameters.iter().map(|(name, bounds)| format!("{name}: {bounds} {implemented}")).collect();
    let names: Vec<&str> = of.parameters.iter().map(|(name, _)| name.as_str()).collect();
    format!(
        "impl<{lifetime}{}> {implemented} for {}<{}> where {}",
        bounded.join(", "),
        of.name,
        names.join(", "),
        of.conditions
    )
}

#[proc_macro_derive(Serialize, attributes(serde))]
pub fn serialize(input: TokenStream) -> TokenStream {
    let of = declared(input);
    let save = |value: &str| format!("::serde::Serialize::save({value}, to);");
    let body: String = match &of.body {
        Body::Struct(fields) => fields.iter().map(|field| save(&format!("&self.{field}"))).collect(),
        Body::Enum(variants) => {
            let arm = |(place, (name, fields)): (usize, &(String, usize))| {
                let names: Vec<String> = (0..*fields).map(|i| format!("x{i}")).collect();
                let pattern = if names.is_empty() { String::new() } else { format!("({})", names.join(", ")) };
                let saves: String = names.iter().map(|name| save(name)).collect();
                format!("Self::{name}{pattern} => {{ to.push({place}); {saves} }}")
            };
            format!("match self {{ {} }}", variants.iter().enumerate().map(arm).collect::<String>())
        }
    };
    let head = head(&of, "", "::serde::Serialize");
    let code = format!("{head} {{ fn save(&self, to: &mut ::std::vec::Vec<u64>) {{ let _ = &to; {body} }} }}");
    code.parse().expect("the implementation parses")
}

#[proc_macro_derive(Deserialize, attributes(serde))]
pub fn deserialize(input: TokenStream) -> TokenStream {
    let of = declared(input);
    const LOAD: &str = "::serde::Deserialize::load(from)";
    let body = match &of.body {
        Body::Struct(fields) => {
            let loads: String = fields.iter().map(|field| format!("{field}: {LOAD}, ")).collect();
            format!("Self {{ {loads} }}")
        }
        Body::Enum(variants) => {
            let arm = |(place, (name, fields)): (usize, &(String, usize))| {
                let loads = vec![LOAD; *fields].join(", ");
                let pattern = if *fields == 0 { String::new() } else { format!("({loads})") };
                format!("{place} => Self::{name}{pattern}, ")
            };
            let arms: String = variants.iter().enumerate().map(arm).collect();
            format!("match ::serde::next(from) {{ {arms} _ => panic!(\"serde: no such variant\") }}")
        }
    };
    let head = head(&of, "'de, ", "::serde::Deserialize<'de>");
    let code = format!("{head} {{ fn load(from: &mut &'de [u64]) -> Self {{ let _ = &from; {body} }} }}");
    code.parse().expect("the implementation parses")
}
