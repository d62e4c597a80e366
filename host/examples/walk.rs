use brinetrellis::{Error, Rebases};

fn main() -> Result<(), Error> {
    let stream = [0x11, 0x22, 0x10, 0x53, 0x00];
    for rebase in Rebases::new(&stream, 8)? {
        let rebase = rebase?;
        println!(
            "segment {}, offset {}, type {}",
            rebase.segment, rebase.place, rebase.kind
        );
    }
    Ok(())
}
