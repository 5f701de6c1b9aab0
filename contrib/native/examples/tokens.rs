//! The tokens of a file: contrib/native/drive . contrib/native/examples/tokens.rs FILE
use gft_core::Text;
use gft_lex::lex;
use gft_rules::Stop;
use rstd::driver::*;

fn main() {
    run(|| {
        let file = words().remove(0);
        match lex(Global, 0, &read(&file)) {
            Ok(tokens) => {
                for t in tokens.iter() {
                    println!("{}:{} {:?}", t.place.line, t.place.col, t.form);
                }
            }
            Err(Stop::Refused(r)) => {
                let files = vec_of([Text::from_str(Global, &file).unwrap()]);
                println!("{}", r.show(Global, &files).unwrap().as_str());
                std::process::exit(1);
            }
            Err(Stop::NoMemory) => println!("no memory"),
        }
    })
}
