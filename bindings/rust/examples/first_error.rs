//! Formats a text, or says where it is wrong.

fn main() {
    match wac_front::tidy("package a:b; let x y;") {
        Ok(printed) => print!("{printed}"),
        Err(error) => println!("{:?}: {error}", error.span),
    }
}
