//! A plain reader and writer of class files, to compare with: plain FILE ROUNDS

use std::env;
use std::fs;
use std::time::Instant;

enum Const {
    Gap,
    Utf8(Vec<u16>),
    Integer(i32),
    Float(u32),
    Long(i64),
    Double(u64),
    One(u8, u16),
    Two(u8, u16, u16),
    MethodHandle(u8, u16),
}

struct Attr {
    name: u16,
    bytes: Vec<u8>,
}

struct Member {
    flags: u16,
    name: u16,
    descriptor: u16,
    attributes: Vec<Attr>,
}

struct ClassData {
    minor: u16,
    major: u16,
    pool: Vec<Const>,
    flags: u16,
    this_class: u16,
    super_class: u16,
    interfaces: Vec<u16>,
    fields: Vec<Member>,
    methods: Vec<Member>,
    attributes: Vec<Attr>,
}

type Read<T> = Result<T, usize>;

struct Input<'a> {
    bytes: &'a [u8],
    at: usize,
}

impl<'a> Input<'a> {
    fn run(&mut self, count: usize) -> Read<&'a [u8]> {
        let end = self.at.checked_add(count).filter(|end| *end <= self.bytes.len());
        let run = &self.bytes[self.at..end.ok_or(self.at)?];
        self.at += count;
        Ok(run)
    }

    fn u1(&mut self) -> Read<u8> {
        Ok(self.run(1)?[0])
    }

    fn u2(&mut self) -> Read<u16> {
        Ok(u16::from_be_bytes(self.run(2)?.try_into().unwrap()))
    }

    fn u4(&mut self) -> Read<u32> {
        Ok(u32::from_be_bytes(self.run(4)?.try_into().unwrap()))
    }

    fn u8(&mut self) -> Read<u64> {
        Ok(u64::from_be_bytes(self.run(8)?.try_into().unwrap()))
    }
}

fn units(bytes: &[u8]) -> Option<Vec<u16>> {
    let mut units = Vec::new();
    let mut at = 0;
    let later = |at: usize| bytes.get(at).filter(|b| **b & 0xc0 == 0x80).map(|b| u16::from(*b & 0x3f));
    while at < bytes.len() {
        let first = bytes[at];
        if (1..0x80).contains(&first) {
            units.push(u16::from(first));
            at += 1;
        } else if first & 0xe0 == 0xc0 {
            let unit = u16::from(first & 0x1f) << 6 | later(at + 1)?;
            if unit != 0 && unit < 0x80 {
                return None;
            }
            units.push(unit);
            at += 2;
        } else if first & 0xf0 == 0xe0 {
            let unit = u16::from(first & 0xf) << 12 | later(at + 1)? << 6 | later(at + 2)?;
            if unit < 0x800 {
                return None;
            }
            units.push(unit);
            at += 3;
        } else {
            return None;
        }
    }
    Some(units)
}

fn constant(input: &mut Input) -> Read<Const> {
    let at = input.at;
    Ok(match input.u1()? {
        1 => {
            let count = input.u2()?;
            Const::Utf8(units(input.run(usize::from(count))?).ok_or(at)?)
        }
        3 => Const::Integer(input.u4()? as i32),
        4 => Const::Float(input.u4()?),
        5 => Const::Long(input.u8()? as i64),
        6 => Const::Double(input.u8()?),
        tag @ (7 | 8 | 16) => Const::One(tag, input.u2()?),
        tag @ (9..=12 | 18) => Const::Two(tag, input.u2()?, input.u2()?),
        15 => Const::MethodHandle(input.u1()?, input.u2()?),
        _ => return Err(at),
    })
}

fn names(pool: &[Const], index: u16, tag: u8) -> bool {
    match pool.get(usize::from(index)) {
        Some(Const::Utf8(_)) => tag == 1,
        Some(Const::One(found, _) | Const::Two(found, _, _)) => *found == tag,
        _ => false,
    }
}

fn names_right(pool: &[Const], entry: &Const) -> bool {
    match *entry {
        Const::One(_, text) => names(pool, text, 1),
        Const::Two(12, name, descriptor) => names(pool, name, 1) && names(pool, descriptor, 1),
        Const::Two(18, _, pair) => names(pool, pair, 12),
        Const::Two(_, class, pair) => names(pool, class, 7) && names(pool, pair, 12),
        _ => true,
    }
}

fn pool(input: &mut Input) -> Read<Vec<Const>> {
    let count = usize::from(input.u2()?);
    let mut pool = vec![Const::Gap];
    while pool.len() < count {
        let entry = constant(input)?;
        let wide = matches!(entry, Const::Long(_) | Const::Double(_));
        pool.push(entry);
        if wide {
            pool.push(Const::Gap);
        }
    }
    match pool.iter().all(|entry| names_right(&pool, entry)) {
        true => Ok(pool),
        false => Err(input.at),
    }
}

fn list<T>(input: &mut Input, mut item: impl FnMut(&mut Input) -> Read<T>) -> Read<Vec<T>> {
    let count = input.u2()?;
    (0..count).map(|_| item(input)).collect()
}

fn attribute(input: &mut Input, pool: &[Const]) -> Read<Attr> {
    let name = input.u2()?;
    if !names(pool, name, 1) {
        return Err(input.at);
    }
    let count = input.u4()?;
    Ok(Attr { name, bytes: input.run(count as usize)?.to_vec() })
}

fn member(input: &mut Input, pool: &[Const]) -> Read<Member> {
    Ok(Member {
        flags: input.u2()?,
        name: input.u2()?,
        descriptor: input.u2()?,
        attributes: list(input, |input| attribute(input, pool))?,
    })
}

fn read(bytes: &[u8]) -> Read<ClassData> {
    let mut input = Input { bytes, at: 0 };
    if input.u4()? != 0xcafebabe {
        return Err(0);
    }
    let (minor, major) = (input.u2()?, input.u2()?);
    let pool = pool(&mut input)?;
    let (flags, this_class, super_class) = (input.u2()?, input.u2()?, input.u2()?);
    let interfaces = list(&mut input, |input| input.u2())?;
    let fields = list(&mut input, |input| member(input, &pool))?;
    let methods = list(&mut input, |input| member(input, &pool))?;
    let attributes = list(&mut input, |input| attribute(input, &pool))?;
    match input.at == bytes.len() {
        true => Ok(ClassData {
            minor,
            major,
            pool,
            flags,
            this_class,
            super_class,
            interfaces,
            fields,
            methods,
            attributes,
        }),
        false => Err(input.at),
    }
}

fn put_units(out: &mut Vec<u8>, units: &[u16]) {
    let start = out.len();
    out.extend([0, 0]);
    for unit in units {
        match *unit {
            unit @ 1..0x80 => out.push(unit as u8),
            unit @ 0..0x800 => out.extend([0xc0 | (unit >> 6) as u8, 0x80 | (unit & 0x3f) as u8]),
            unit => out.extend([
                0xe0 | (unit >> 12) as u8,
                0x80 | (unit >> 6 & 0x3f) as u8,
                0x80 | (unit & 0x3f) as u8,
            ]),
        }
    }
    let count = (out.len() - start - 2) as u16;
    out[start..start + 2].copy_from_slice(&count.to_be_bytes());
}

fn put_constant(out: &mut Vec<u8>, entry: &Const) {
    match entry {
        Const::Gap => {}
        Const::Utf8(units) => {
            out.push(1);
            put_units(out, units);
        }
        Const::Integer(value) => {
            out.push(3);
            out.extend(value.to_be_bytes());
        }
        Const::Float(bits) => {
            out.push(4);
            out.extend(bits.to_be_bytes());
        }
        Const::Long(value) => {
            out.push(5);
            out.extend(value.to_be_bytes());
        }
        Const::Double(bits) => {
            out.push(6);
            out.extend(bits.to_be_bytes());
        }
        Const::One(tag, index) => {
            out.push(*tag);
            out.extend(index.to_be_bytes());
        }
        Const::Two(tag, first, second) => {
            out.push(*tag);
            out.extend(first.to_be_bytes());
            out.extend(second.to_be_bytes());
        }
        Const::MethodHandle(kind, index) => {
            out.extend([15, *kind]);
            out.extend(index.to_be_bytes());
        }
    }
}

fn put_attributes(out: &mut Vec<u8>, attributes: &[Attr]) {
    out.extend((attributes.len() as u16).to_be_bytes());
    for attribute in attributes {
        out.extend(attribute.name.to_be_bytes());
        out.extend((attribute.bytes.len() as u32).to_be_bytes());
        out.extend(&attribute.bytes);
    }
}

fn put_members(out: &mut Vec<u8>, members: &[Member]) {
    out.extend((members.len() as u16).to_be_bytes());
    for member in members {
        for number in [member.flags, member.name, member.descriptor] {
            out.extend(number.to_be_bytes());
        }
        put_attributes(out, &member.attributes);
    }
}

fn write(file: &ClassData) -> Vec<u8> {
    let mut out = Vec::new();
    out.extend(0xcafebabe_u32.to_be_bytes());
    for number in [file.minor, file.major, file.pool.len() as u16] {
        out.extend(number.to_be_bytes());
    }
    for entry in &file.pool {
        put_constant(&mut out, entry);
    }
    for number in [file.flags, file.this_class, file.super_class, file.interfaces.len() as u16] {
        out.extend(number.to_be_bytes());
    }
    for interface in &file.interfaces {
        out.extend(interface.to_be_bytes());
    }
    put_members(&mut out, &file.fields);
    put_members(&mut out, &file.methods);
    put_attributes(&mut out, &file.attributes);
    out
}

fn main() {
    let words: Vec<String> = env::args().collect();
    let bytes = fs::read(&words[1]).expect("the file");
    let rounds: u32 = words[2].parse().expect("a number of rounds");
    let start = Instant::now();
    let same = (0..rounds).all(|_| read(&bytes).is_ok_and(|file| write(&file) == bytes));
    eprintln!("{:?} a round", start.elapsed() / rounds);
    println!("{}", if same { "the same bytes" } else { "other bytes, or refused" });
}
