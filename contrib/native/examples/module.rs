//! The parsed module of each file: contrib/native/drive . contrib/native/examples/module.rs FILE ..
use gft_core::Text;
use rstd::driver::*;

fn parsed(number: u32, name: &str) -> Result<gft_syntax::Module, gft_rules::Stop> {
    let tokens = gft_lex::lex(Global, number, &read(name))?;
    gft_parse::parse_module(Global, number, &tokens)
}

fn main() {
    run(|| {
        let files = vec_of(words().iter().map(|w| Text::from_str(Global, w).unwrap()));
        for (i, name) in words().iter().enumerate() {
            match parsed(i as u32, name) {
                Ok(module) => println!("{module:#?}"),
                Err(gft_rules::Stop::Refused(r)) => println!("{}", r.show(Global, &files).unwrap().as_str()),
                Err(gft_rules::Stop::NoMemory) => println!("no memory"),
            }
        }
    })
}
