//! Prints the sample instance of the public Solomon text form.

fn main() {
    print!("{}", kz::harbour::sample_text());
}
