//! Every mapping text that is one byte away from a good one, on both kits: a byte more, a byte less, another byte in the place of one,
//! and every text that is cut.

use cp1610::Refusal;
use differential::{Handwritten, Kit, Proved};

/// Two lines and an empty one. With another digit they name words that the file has not, or go past the memory.
const TEXT: &[u8] = b"[mapping]\n$0000 - $0001 = $0123\n\n$0019 - $00A8 = $0BCD\n";
const WORDS: usize = 0x100;
const MEMORY: usize = 0xE00;

/// The texts, all of them different from the good one.
fn near_texts() -> Vec<Vec<u8>> {
    let mut texts = Vec::new();
    for at in 0..=TEXT.len() {
        let (front, back) = TEXT.split_at(at);
        for byte in 0..=u8::MAX {
            texts.push([front, &[byte], back].concat());
            texts.extend(back.split_first().map(|(_, behind)| [front, &[byte], behind].concat()));
        }
        texts.extend(back.split_first().map(|(_, behind)| [front, behind].concat()));
        texts.push(front.to_vec());
    }
    texts.retain(|text| text != TEXT);
    texts
}

/// What a kit answers and leaves.
fn loaded<K: Kit>(bin: &[u8], text: &[u8]) -> (Result<usize, Refusal>, Vec<u16>) {
    let mut memory = vec![0x5A5A; MEMORY];
    (K::load_pair(&mut memory, bin, text), memory)
}

#[test]
fn both_kits_answer_alike() {
    let bin: Vec<u8> = (0..2 * WORDS).map(|n| (n * 7 % 251) as u8).collect();
    assert_eq!(loaded::<Proved>(&bin, TEXT).0, Ok(2));
    let mut met = [0; 17];
    for text in near_texts() {
        let ours = loaded::<Proved>(&bin, &text);
        assert!(ours == loaded::<Handwritten>(&bin, &text), "{:?}: {:?}", String::from_utf8_lossy(&text), ours.0);
        met[ours.0.map_or_else(|refusal| refusal.number().into(), |_| 0)] += 1;
    }
    println!("{} loaded, {} refused by 15, {} by 16, {} by 11", met[0], met[15], met[16], met[11]);
    assert!([0, 11, 15, 16].iter().all(|number| met[*number] > 0));
}
