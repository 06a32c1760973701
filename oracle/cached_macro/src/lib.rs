//! An attribute that remembers the results of a function of one argument, for as long as the program runs.
extern crate proc_macro;
use proc_macro::{Delimiter, TokenStream, TokenTree};

#[proc_macro_attribute]
pub fn cached(_: TokenStream, item: TokenStream) -> TokenStream {
    let tokens: Vec<TokenTree> = item.into_iter().collect();
    let at = tokens.iter().position(|t| t.to_string() == "fn").expect("cached: a function");
    let name = tokens[at + 1].to_string();
    let arguments = match &tokens[at + 2] {
        TokenTree::Group(g) if g.delimiter() == Delimiter::Parenthesis => g.stream().to_string(),
        _ => panic!("cached: arguments"),
    };
    let colon = arguments.find(':').expect("cached: one argument");
    let (argument, kind) = (arguments[..colon].trim(), arguments[colon + 1..].trim());
    let last = tokens.len() - 1;
    let result: TokenStream = tokens[at + 3..last].iter().cloned().collect();
    let result = result.to_string();
    let answer = result.trim().trim_start_matches('-').trim_start_matches('>').trim().to_string();
    let body = tokens[last].to_string();
    format!(
        "fn {name}({argument}: {kind}) -> {answer} {{
            use std::collections::HashMap;
            use std::sync::{{Mutex, OnceLock}};
            fn compute({argument}: {kind}) -> {answer} {body}
            static CACHE: OnceLock<Mutex<HashMap<{kind}, {answer}>>> = OnceLock::new();
            let mut cache = CACHE.get_or_init(|| Mutex::new(HashMap::new())).lock().unwrap();
            cache.entry({argument}).or_insert_with(|| compute({argument})).clone()
        }}"
    )
    .parse()
    .expect("cached: the function written anew")
}
