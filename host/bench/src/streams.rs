//! The opcode streams.

/// A number, seven bits a byte.
pub fn uleb(bytes: &mut Vec<u8>, mut value: u64) {
    while value >= 0x80 {
        bytes.push(value as u8 | 0x80);
        value >>= 7;
    }
    bytes.push(value as u8);
}

/// A number behind its opcode.
fn operation(bytes: &mut Vec<u8>, opcode: u8, value: u64) {
    bytes.push(opcode);
    uleb(bytes, value);
}

/// Two numbers behind it.
fn skipping(bytes: &mut Vec<u8>, opcode: u8, count: u64, skip: u64) {
    operation(bytes, opcode, count);
    uleb(bytes, skip);
}

/// A rebase stream: type 1, segment 2, what is given, and Done.
fn rebase(body: impl FnOnce(&mut Vec<u8>)) -> Vec<u8> {
    let mut bytes = vec![0x11];
    operation(&mut bytes, 0x22, 0x10);
    body(&mut bytes);
    bytes.push(0x00);
    bytes
}

/// Many operations, of few places each: 17 places a block.
pub fn rebases(blocks: u64) -> Vec<u8> {
    rebase(|bytes| {
        for block in 0..blocks {
            operation(bytes, 0x21, 0x1000 * block);
            for gap in 0..6 {
                operation(bytes, 0x70, 8 * gap);
            }
            bytes.extend([0x51, 0x43, 0x54]);
            operation(bytes, 0x30, 0x120);
            bytes.push(0x51);
            skipping(bytes, 0x80, 3, 8);
            operation(bytes, 0x60, 2);
        }
    })
}

/// One operation of very many places.
pub fn repeat(places: u64) -> Vec<u8> {
    rebase(|bytes| operation(bytes, 0x60, places))
}

/// Many operations of a thousand places each, with and without gaps.
pub fn long_repeats(operations: u64) -> Vec<u8> {
    rebase(|bytes| {
        for index in 0..operations {
            match index % 2 {
                0 => operation(bytes, 0x60, 1000),
                _ => skipping(bytes, 0x80, 1000, 8),
            }
        }
    })
}

/// Single places, all by the byte 51.
pub fn ones(places: usize) -> Vec<u8> {
    rebase(|bytes| bytes.resize(bytes.len() + places, 0x51))
}

/// Single places by 70, with gaps of one byte.
pub fn gaps(places: u64) -> Vec<u8> {
    rebase(|bytes| {
        for place in 0..places {
            operation(bytes, 0x70, gap(place));
        }
    })
}

/// The same with gaps of two bytes.
pub fn long_gaps(places: u64) -> Vec<u8> {
    rebase(|bytes| {
        for place in 0..places {
            operation(bytes, 0x70, 0x80 + gap(place));
        }
    })
}

/// A gap that is one byte and not always the same.
fn gap(place: u64) -> u64 {
    8 * (place % 16)
}

/// Single places by each of the operations that make them.
pub fn mixed(places: u64) -> Vec<u8> {
    rebase(|bytes| {
        for place in 0..places {
            match place.wrapping_mul(0x9e37_79b9_7f4a_7c15) >> 62 {
                0 => bytes.push(0x51),
                1 => operation(bytes, 0x60, 1),
                2 => operation(bytes, 0x70, gap(place)),
                _ => skipping(bytes, 0x80, 1, gap(place)),
            }
        }
    })
}

/// A plain bind stream: type 1, segment 2, what is given, and Done.
fn bind(body: impl FnOnce(&mut Vec<u8>)) -> Vec<u8> {
    let mut bytes = vec![0x51];
    operation(&mut bytes, 0x72, 0);
    body(&mut bytes);
    bytes.push(0x00);
    bytes
}

fn symbol(bytes: &mut Vec<u8>, number: u64) {
    bytes.push(0x40);
    bytes.extend(format!("_a_symbol_of_the_library_{number:05}\0").bytes());
}

/// A name for most places.
pub fn binds(symbols: u64) -> Vec<u8> {
    bind(|bytes| {
        for number in 0..symbols {
            if number % 16 == 0 {
                bytes.push(0x11 + (number / 16 % 15) as u8);
            }
            symbol(bytes, number);
            match number % 4 {
                0 => bytes.push(0x90),
                1 => operation(bytes, 0xa0, 24),
                2 => bytes.push(0xb2),
                _ => skipping(bytes, 0xc0, 3, 8),
            }
        }
    })
}

/// Single places of one name, all by the byte 90.
pub fn nineties(places: usize) -> Vec<u8> {
    bind(|bytes| {
        bytes.push(0x11);
        symbol(bytes, 0);
        bytes.resize(bytes.len() + places, 0x90);
    })
}
