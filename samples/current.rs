//! samples/current.rs: prints which version of the signers' list is current in a pack.

fn main() {
    let path = std::env::args().nth(1).expect("a pack is given");
    let pack = std::fs::read(path).expect("the pack can be read");
    match vof::current(&pack, b"herd", b"signers/list") {
        Err(refusal) => println!("{refusal}\n{}", refusal.advice()),
        Ok(Some(version)) if !version.is_delete_marker => {
            println!("{}", String::from_utf8_lossy(version.identifier.ulid()));
        }
        Ok(_) => println!("there is no such object"),
    }
}
