// Prints when each event of an EIT starts, and the first string of its title.
use guide::{Eit, Refusal, Title};
use std::io::Read;

fn main() -> Result<(), Box<dyn std::error::Error>> {
    let mut section = Vec::new();
    std::io::stdin().read_to_end(&mut section)?;
    for event in Eit::read(&section)?.events() {
        let title = match event.title {
            Title::None => "no title".to_string(),
            Title::NoStrings => "a title of no strings".to_string(),
            Title::Text(text) => text.string(0).unwrap_or_else(|refusal: Refusal| format!("refused: {refusal}")),
        };
        println!("{} {title}", event.start_time);
    }
    Ok(())
}
