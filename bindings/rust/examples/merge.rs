//! Checks a template, fills it with two records and with one that lacks a name, first with one after another and then with all
//! at once, and lists the last text.

use gabirong::{record, Host, MAX_TEXT};
use std::io::Write;

fn main() -> Result<(), Box<dyn std::error::Error>> {
    let template = b"INSERT INTO runs VALUES (@{site}, @{cm});@n";
    let pairs: [&[(&[u8], &[u8])]; 3] = [
        &[(b"site", b"Elm"), (b"cm", b"42")],
        &[(b"site", b"O'Hara"), (b"cm", b"7")],
        &[(b"site", b"Oak")],
    ];
    let mut file = Vec::new();
    for pairs in pairs {
        file.extend(record(pairs).ok_or("a name or a value is too long")?);
    }

    println!("checked: {} holes", Host::Sql.check(template)?);

    let mut out = vec![0; MAX_TEXT];
    let (mut place, mut len) = (0, 0);
    loop {
        match Host::Sql.merge(template, &file, place, &mut out) {
            Ok(Some(merged)) => {
                len = merged.len;
                std::io::stdout().write_all(&out[..len])?;
                place = merged.next;
            }
            Ok(None) => break,
            Err(refusal) => {
                println!("{refusal}");
                break;
            }
        }
    }

    let mut texts = vec![0; MAX_TEXT];
    let merges = Host::Sql.merge_many(template, &file, 0, usize::MAX, &mut texts);
    println!(
        "at once: {} records, {} bytes, next place {}",
        merges.count, merges.len, merges.next
    );
    std::io::stdout().write_all(&texts[..merges.len])?;
    if let Some(refusal) = merges.refusal {
        println!("{refusal}");
    }

    let mut fields = vec![0; MAX_TEXT];
    let listed = Host::Sql.list(&out[..len], &mut fields)?;
    let mut rest = &fields[..listed];
    while let [kind, high, low, after @ ..] = rest {
        let (value, next) = after.split_at(usize::from(u16::from_be_bytes([*high, *low])));
        println!("kind {kind}: {}", String::from_utf8_lossy(value));
        rest = next;
    }
    Ok(())
}
