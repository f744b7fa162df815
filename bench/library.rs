//! For library.sh: what examples/c/addr2line does, over the Rust crate addr2line, with the file mapped and nothing of it copied.
//!
//!     library -e FILE [-f -i | --all]      addresses in hexadecimal come from the standard input
use addr2line::gimli::{Dwarf, EndianSlice, RunTimeEndian};
use addr2line::{Context, Location};
use object::{Object, ObjectSection, ObjectSymbol, SymbolKind};
use std::io::{self, BufRead, BufWriter, Write};

type Slice = EndianSlice<'static, RunTimeEndian>;

struct Symbol {
    address: u64,
    size: u64,
    name: &'static str,
}

/// The symbols of a file by their addresses.
fn symbols_of(file: &object::File<'static>) -> Vec<Symbol> {
    let mut found: Vec<Symbol> = file
        .symbols()
        .filter(|it| !it.is_undefined() && !matches!(it.kind(), SymbolKind::Section | SymbolKind::File))
        .filter_map(|it| {
            let name = it.name().ok().filter(|name| !name.is_empty())?;
            Some(Symbol { address: it.address(), size: it.size(), name })
        })
        .collect();
    found.sort_by_key(|it| it.address);
    found
}

/// The symbol that holds an address.
fn symbol_at(symbols: &[Symbol], address: u64) -> Option<&'static str> {
    let end = symbols.partition_point(|it| it.address <= address);
    let last = symbols[..end].last()?.address;
    let begin = symbols[..end].partition_point(|it| it.address < last);
    let found = symbols[begin..end].iter().find(|it| it.size == 0 || address - it.address < it.size)?;
    Some(found.name)
}

fn write_place<W: Write>(out: &mut W, place: Option<&Location<'_>>) -> io::Result<()> {
    let Some(place) = place else { return writeln!(out, "??:0") };
    out.write_all(place.file.unwrap_or("??").as_bytes())?;
    match place.line {
        Some(line) => writeln!(out, ":{line}"),
        None => writeln!(out, ":?"),
    }
}

struct Engine {
    context: Context<Slice>,
    symbols: Vec<Symbol>,
    has_frames: bool,
}

impl Engine {
    fn answer<W: Write>(&self, out: &mut W, address: u64) -> io::Result<()> {
        if !self.has_frames {
            let place = self.context.find_location(address).ok().flatten();
            return write_place(out, place.as_ref());
        }
        let symbol = symbol_at(&self.symbols, address);
        let Ok(mut frames) = self.context.find_frames(address).skip_all_loads() else {
            return writeln!(out, "{}\n??:0", symbol.unwrap_or("??"));
        };
        let mut next = frames.next().ok().flatten();
        if next.is_none() {
            return writeln!(out, "{}\n??:0", symbol.unwrap_or("??"));
        }
        while let Some(frame) = next {
            next = frames.next().ok().flatten();
            match (symbol, &frame.function) {
                (Some(symbol), _) if next.is_none() => writeln!(out, "{symbol}")?,
                (_, Some(function)) => writeln!(out, "{}", function.raw_name().unwrap_or("??".into()))?,
                _ => writeln!(out, "??")?,
            }
            write_place(out, frame.location.as_ref())?;
        }
        Ok(())
    }

    /// The place of each address at which a range begins, in the crate's order.
    fn answer_all<W: Write>(&self, out: &mut W) -> io::Result<()> {
        for (_, _, place) in self.context.find_location_range(0, u64::MAX).expect("ranges") {
            write_place(out, Some(&place))?;
        }
        Ok(())
    }
}

fn main() -> io::Result<()> {
    let words: Vec<String> = std::env::args().skip(1).collect();
    let file = std::fs::File::open(&words[1])?;
    let map: &'static memmap2::Mmap = Box::leak(Box::new(unsafe { memmap2::Mmap::map(&file)? }));
    let file = object::File::parse(&**map).expect("an ELF file");
    let order = if file.is_little_endian() { RunTimeEndian::Little } else { RunTimeEndian::Big };
    let dwarf = Dwarf::load(|id| -> Result<Slice, object::Error> {
        let bytes = file.section_by_name(id.name()).map_or(Ok(&[][..]), |it| it.data())?;
        Ok(EndianSlice::new(bytes, order))
    });
    let has_frames = words.iter().any(|it| it == "-f");
    let engine = Engine {
        context: Context::from_dwarf(dwarf.expect("sections")).expect("debugging information"),
        symbols: if has_frames { symbols_of(&file) } else { Vec::new() },
        has_frames,
    };
    let mut out = BufWriter::new(io::stdout().lock());
    if words.iter().any(|it| it == "--all") {
        engine.answer_all(&mut out)?;
        return out.flush();
    }
    let mut input = io::BufReader::with_capacity(1 << 16, io::stdin().lock());
    let mut line = String::new();
    while input.read_line(&mut line)? > 0 {
        let word = line.trim_end();
        match u64::from_str_radix(word.strip_prefix("0x").unwrap_or(word), 16) {
            Ok(address) => engine.answer(&mut out, address)?,
            Err(_) => write_place(&mut out, None)?,
        }
        line.clear();
        if input.buffer().is_empty() {
            out.flush()?;
        }
    }
    out.flush()
}
