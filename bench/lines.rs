//! The plain loops that the reading of line number programs is compared with: the same work over the same generated
//! bytes, without readers. A checksum of each measurement goes to standard output, its time to standard error.
//! Usage: lines [BYTES]
use std::time::Instant;

mod numbers;
use numbers::{leb128, mix, signed_leb128};

// ---- the bytes, by the rule of crates/linemap_bench/src/source.rt and lines_bytes.rt

const AFTER_LENGTH: &[u8] = &[
    4, 0, 0x1b, 0, 0, 0, 1, 1, 1, 0xfb, 14, 13, 0, 1, 1, 1, 1, 0, 0, 0, 1, 0, 0, 1, 0, b'a', b'.', b'c', 0, 0, 0, 0, 0,
];

struct Source(u64);

impl Source {
    fn next(&mut self) -> u8 {
        self.0 = self.0.wrapping_mul(6364136223846793005).wrapping_add(1442695040888963407);
        self.0.to_be_bytes()[0]
    }

    fn number(&mut self, bytes: &mut Vec<u8>) {
        let first = self.next();
        bytes.push(first);
        if first >= 0x80 {
            bytes.push(self.next() & 0x7f);
        }
    }
}

fn section(size: usize) -> Vec<u8> {
    let mut source = Source(1);
    let mut program = Vec::new();
    sequence(&mut source, &mut program);
    while program.len() < size {
        instruction(&mut source, &mut program);
    }
    program.extend([0, 1, 1]);
    let mut section = ((AFTER_LENGTH.len() + program.len()) as u32).to_le_bytes().to_vec();
    section.extend(AFTER_LENGTH);
    section.extend(program);
    section
}

const BEFORE_LENGTH: &[u8] = &[5, 0, 8, 0];
const BEFORE_DIRECTORIES: &[u8] = &[1, 1, 1, 0xfb, 14, 13, 0, 1, 1, 1, 1, 0, 0, 0, 1, 0, 0, 1, 1, 1, 0x1f];
const FILE_FORMATS: &[u8] = &[2, 1, 0x1f, 2, 0x0f];
const FILE_FORMATS_WITH_DIGEST: &[u8] = &[3, 1, 0x1f, 2, 0x0f, 5, 0x1e];

fn headers_section(size: usize) -> Vec<u8> {
    let mut source = Source(1);
    let mut section = Vec::new();
    while section.len() < size {
        let mut fields = BEFORE_DIRECTORIES.to_vec();
        let directories = 1 + source.next() % 4;
        fields.push(directories);
        fields.extend((0..4 * usize::from(directories)).map(|_| source.next()));
        let has_digests = source.next() < 0x80;
        fields.extend(if has_digests { FILE_FORMATS_WITH_DIGEST } else { FILE_FORMATS });
        let files = 1 + source.next() % 64;
        fields.push(files);
        for _ in 0..files {
            fields.extend((0..4).map(|_| source.next()));
            source.number(&mut fields);
            if has_digests {
                fields.extend((0..16).map(|_| source.next()));
            }
        }
        section.extend((fields.len() as u32 + 8).to_le_bytes());
        section.extend(BEFORE_LENGTH);
        section.extend((fields.len() as u32).to_le_bytes());
        section.extend(fields);
    }
    section
}

fn instruction(source: &mut Source, bytes: &mut Vec<u8>) {
    let with_number = |opcode, source: &mut Source, bytes: &mut Vec<u8>| {
        bytes.push(opcode);
        source.number(bytes);
    };
    match source.next() {
        0..0x70 => bytes.push(13 + source.next() % 243),
        0x70..0xa0 => with_number(5, source, bytes),
        0xa0..0xb4 => with_number(3, source, bytes),
        0xb4..0xc8 => with_number(2, source, bytes),
        0xc8..0xd8 => bytes.push(6),
        0xd8..0xe0 => bytes.push(1),
        0xe0..0xe8 => bytes.push(8),
        0xe8..0xec => bytes.push(10),
        0xec..0xf0 => with_number(4, source, bytes),
        0xf0..0xfe => bytes.extend([0, 2, 4, source.next() & 0x7f]),
        _ => {
            bytes.extend([0, 1, 1]);
            sequence(source, bytes);
        }
    }
}

fn sequence(source: &mut Source, bytes: &mut Vec<u8>) {
    bytes.extend([0, 9, 2]);
    bytes.extend((0..7).map(|_| source.next()));
    bytes.push(0);
}

// ---- headers

struct Header<'a> {
    version: u16,
    minimum_instruction_length: u8,
    maximum_operations: u8,
    default_is_stmt: bool,
    line_base: i8,
    line_range: u8,
    opcode_base: u8,
    operand_counts: &'a [u8],
    program: &'a [u8],
}

fn header(section: &[u8]) -> Option<Header<'_>> {
    let length = u32::from_le_bytes(section.get(..4)?.try_into().ok()?) as usize;
    let unit = section.get(4..4 + length)?;
    let header_length = u32::from_le_bytes(unit.get(2..6)?.try_into().ok()?) as usize;
    let opcode_base = *unit.get(11)?;
    Some(Header {
        version: u16::from_le_bytes(unit.get(..2)?.try_into().ok()?),
        minimum_instruction_length: *unit.get(6)?,
        maximum_operations: *unit.get(7)?,
        default_is_stmt: *unit.get(8)? != 0,
        line_base: *unit.get(9)? as i8,
        line_range: *unit.get(10)?,
        opcode_base,
        operand_counts: unit.get(12..11 + opcode_base as usize)?,
        program: unit.get(6 + header_length..)?,
    })
}

// ---- headers with files

enum Value<'a> {
    Number(u64),
    Offset(usize),
    Text { _bytes: &'a [u8] },
    Digest([u8; 16]),
}

struct File<'a> {
    path: Value<'a>,
    directory: u64,
    _timestamp: u64,
    _size: u64,
    digest: [u8; 16],
}

struct Tables<'a> {
    _directory_formats: Vec<(u64, u64)>,
    _directories: Vec<Value<'a>>,
    _file_formats: Vec<(u64, u64)>,
    files: Vec<File<'a>>,
}

fn fixed<const N: usize>(bytes: &[u8], at: &mut usize) -> Option<[u8; N]> {
    let value = bytes.get(*at..)?.first_chunk()?;
    *at += N;
    Some(*value)
}

fn value<'a>(bytes: &'a [u8], at: &mut usize, form: u64) -> Option<Value<'a>> {
    Some(match form {
        0x08 => {
            let text = bytes.get(*at..)?;
            let length = text.iter().position(|byte| *byte == 0)?;
            *at += length + 1;
            Value::Text { _bytes: &text[..length] }
        }
        0x0b => Value::Number(u8::from_le_bytes(fixed(bytes, at)?).into()),
        0x05 => Value::Number(u16::from_le_bytes(fixed(bytes, at)?).into()),
        0x0f => Value::Number(leb128(bytes, at)?),
        0x0e | 0x1f => Value::Offset(u32::from_le_bytes(fixed(bytes, at)?) as usize),
        0x1e => Value::Digest(fixed(bytes, at)?),
        _ => return None,
    })
}

fn formats(bytes: &[u8], at: &mut usize) -> Option<Vec<(u64, u64)>> {
    let [count] = fixed(bytes, at)?;
    let mut formats = Vec::new();
    for _ in 0..count {
        formats.push((leb128(bytes, at)?, leb128(bytes, at)?));
    }
    (formats.iter().filter(|format| format.0 == 1).count() == 1).then_some(formats)
}

fn file<'a>(bytes: &'a [u8], at: &mut usize, formats: &[(u64, u64)]) -> Option<File<'a>> {
    let mut file = File { path: Value::Number(0), directory: 0, _timestamp: 0, _size: 0, digest: [0; 16] };
    for (content, form) in formats {
        match (content, value(bytes, at, *form)?) {
            (1, path) => file.path = path,
            (2, Value::Number(number)) => file.directory = number,
            (3, Value::Number(number)) => file._timestamp = number,
            (4, Value::Number(number)) => file._size = number,
            (5, Value::Digest(digest)) => file.digest = digest,
            _ => {}
        }
    }
    Some(file)
}

fn tables<'a>(bytes: &'a [u8], at: &mut usize) -> Option<Tables<'a>> {
    let directory_formats = formats(bytes, at)?;
    let mut directories = Vec::new();
    for _ in 0..leb128(bytes, at)? {
        directories.push(file(bytes, at, &directory_formats)?.path);
    }
    let file_formats = formats(bytes, at)?;
    let mut files = Vec::new();
    for _ in 0..leb128(bytes, at)? {
        files.push(file(bytes, at, &file_formats)?);
    }
    Some(Tables { _directory_formats: directory_formats, _directories: directories, _file_formats: file_formats, files })
}

// The fields of a header of version 5, which begin at its third length, and its tables.
fn header_of_5(unit: &[u8]) -> Option<Tables<'_>> {
    let header_length = u32::from_le_bytes(unit.get(4..8)?.try_into().ok()?) as usize;
    let fields = unit.get(8..8 + header_length)?;
    if *fields.first()? == 0 || *fields.get(1)? == 0 || *fields.get(4)? == 0 || *fields.get(5)? == 0 {
        return None;
    }
    tables(fields, &mut (5 + usize::from(fields[5])))
}

fn headers(section: &[u8]) -> Option<u64> {
    let (mut sum, mut at) = (0, 0);
    while at < section.len() {
        let length = u32::from_le_bytes(section.get(at..at + 4)?.try_into().ok()?) as usize;
        let unit = section.get(at + 4..at + 4 + length)?;
        for file in &header_of_5(unit)?.files {
            let path = if let Value::Offset(offset) = file.path { offset as u64 } else { 0 };
            sum = mix(mix(mix(sum, path), file.directory), file.digest[0].into());
        }
        at += 4 + length;
    }
    Some(sum)
}

// ---- headers that are only checked

fn skip(bytes: &[u8], at: &mut usize, count: usize) -> Option<()> {
    bytes.get(*at..)?.get(..count)?;
    *at += count;
    Some(())
}

fn check_entries(bytes: &[u8], at: &mut usize) -> Option<()> {
    let [count] = fixed(bytes, at)?;
    let start = *at;
    let mut paths = 0;
    for _ in 0..count {
        paths += u64::from(leb128(bytes, at)? == 1);
        leb128(bytes, at)?;
    }
    if paths != 1 {
        return None;
    }
    for _ in 0..leb128(bytes, at)? {
        let mut format = start;
        for _ in 0..count {
            leb128(bytes, &mut format)?;
            value(bytes, at, leb128(bytes, &mut format)?)?;
        }
    }
    Some(())
}

fn check(unit: &[u8]) -> Option<()> {
    let header_length = u32::from_le_bytes(unit.get(4..8)?.try_into().ok()?) as usize;
    let fields = unit.get(8..8 + header_length)?;
    if *fields.first()? == 0 || *fields.get(1)? == 0 || *fields.get(4)? == 0 || *fields.get(5)? == 0 {
        return None;
    }
    let mut at = 6;
    skip(fields, &mut at, usize::from(fields[5]) - 1)?;
    check_entries(fields, &mut at)?;
    check_entries(fields, &mut at)
}

fn checks(section: &[u8]) -> Option<u64> {
    let (mut sum, mut at) = (0, 0);
    while at < section.len() {
        let length = u32::from_le_bytes(section.get(at..at + 4)?.try_into().ok()?) as usize;
        check(section.get(at + 4..at + 4 + length)?)?;
        sum = mix(sum, length as u64);
        at += 4 + length;
    }
    Some(sum)
}

// ---- instructions

enum Instruction<'a> {
    Special(u8),
    Copy,
    AdvancePc(u64),
    AdvanceLine(i64),
    SetFile(u64),
    SetColumn(u64),
    NegateStatement,
    SetBasicBlock,
    ConstAddPc,
    FixedAddPc(u16),
    SetPrologueEnd,
    SetEpilogueBegin,
    SetIsa(u64),
    EndSequence,
    SetAddress(u64),
    SetDiscriminator(u64),
    DefineFile { _path: &'a [u8], _directory: u64, _timestamp: u64, _size: u64 },
    Unknown { _opcode: u8, _operands: &'a [u8] },
}

fn next<'a>(header: &Header<'a>, at: &mut usize) -> Option<Instruction<'a>> {
    let bytes = header.program;
    let opcode = *bytes.get(*at)?;
    *at += 1;
    if opcode >= header.opcode_base {
        return Some(Instruction::Special(opcode));
    }
    Some(match opcode {
        0 => return extended(header, at),
        1 => Instruction::Copy,
        2 => Instruction::AdvancePc(leb128(bytes, at)?),
        3 => Instruction::AdvanceLine(signed_leb128(bytes, at)?),
        4 => Instruction::SetFile(leb128(bytes, at)?),
        5 => Instruction::SetColumn(leb128(bytes, at)?),
        6 => Instruction::NegateStatement,
        7 => Instruction::SetBasicBlock,
        8 => Instruction::ConstAddPc,
        9 => {
            let advance = u16::from_le_bytes(bytes.get(*at..*at + 2)?.try_into().ok()?);
            *at += 2;
            Instruction::FixedAddPc(advance)
        }
        10 => Instruction::SetPrologueEnd,
        11 => Instruction::SetEpilogueBegin,
        12 => Instruction::SetIsa(leb128(bytes, at)?),
        _ => {
            let start = *at;
            for _ in 0..*header.operand_counts.get(opcode as usize - 1)? {
                leb128(bytes, at)?;
            }
            Instruction::Unknown { _opcode: opcode, _operands: &bytes[start..*at] }
        }
    })
}

fn extended<'a>(header: &Header<'a>, at: &mut usize) -> Option<Instruction<'a>> {
    let length = leb128(header.program, at)? as usize;
    let bytes = header.program.get(*at..)?.get(..length)?;
    *at += length;
    let opcode = *bytes.first()?;
    let mut inner = 1;
    Some(match opcode {
        1 => Instruction::EndSequence,
        2 => Instruction::SetAddress(u64::from_le_bytes(bytes.get(1..9)?.try_into().ok()?)),
        3 if header.version <= 4 => {
            let length = bytes[1..].iter().position(|byte| *byte == 0)?;
            inner += length + 1;
            Instruction::DefineFile {
                _path: &bytes[1..1 + length],
                _directory: leb128(bytes, &mut inner)?,
                _timestamp: leb128(bytes, &mut inner)?,
                _size: leb128(bytes, &mut inner)?,
            }
        }
        4 => Instruction::SetDiscriminator(leb128(bytes, &mut inner)?),
        _ => Instruction::Unknown { _opcode: opcode, _operands: &bytes[1..] },
    })
}

fn number_of(instruction: &Instruction<'_>) -> u64 {
    match *instruction {
        Instruction::Special(opcode) => opcode.into(),
        Instruction::AdvancePc(operand) | Instruction::SetFile(operand) | Instruction::SetColumn(operand) => operand,
        Instruction::SetAddress(operand) | Instruction::SetDiscriminator(operand) => operand,
        Instruction::AdvanceLine(lines) => lines as u64,
        Instruction::Copy => 1,
        Instruction::NegateStatement => 6,
        Instruction::ConstAddPc => 8,
        Instruction::SetPrologueEnd => 10,
        _ => 0,
    }
}

fn instructions(section: &[u8]) -> Option<u64> {
    let header = header(section)?;
    let (mut sum, mut at) = (0, 0);
    while at < header.program.len() {
        sum = mix(sum, number_of(&next(&header, &mut at)?));
    }
    Some(sum)
}

// ---- rows

#[derive(Clone, Copy)]
struct Row {
    address: u64,
    op_index: u64,
    file: u64,
    line: u64,
    column: u64,
    is_stmt: bool,
    basic_block: bool,
    end_sequence: bool,
    prologue_end: bool,
    epilogue_begin: bool,
    isa: u64,
    discriminator: u64,
    is_hidden: bool,
}

impl Row {
    fn start(header: &Header<'_>) -> Row {
        Row {
            address: 0,
            op_index: 0,
            file: 1,
            line: 1,
            column: 0,
            is_stmt: header.default_is_stmt,
            basic_block: false,
            end_sequence: false,
            prologue_end: false,
            epilogue_begin: false,
            isa: 0,
            discriminator: 0,
            is_hidden: false,
        }
    }

    fn clear(&mut self, header: &Header<'_>) {
        if self.end_sequence {
            *self = Row::start(header);
        } else {
            self.basic_block = false;
            self.prologue_end = false;
            self.epilogue_begin = false;
            self.discriminator = 0;
        }
    }

    fn advance(&mut self, header: &Header<'_>, operations: u64) -> Option<()> {
        if self.is_hidden {
            return Some(());
        }
        let operations = self.op_index.wrapping_add(operations);
        let maximum = u64::from(header.maximum_operations);
        let bytes = u64::from(header.minimum_instruction_length).wrapping_mul(operations / maximum);
        self.address = self.address.checked_add(bytes)?;
        self.op_index = operations % maximum;
        Some(())
    }

    fn advance_line(&mut self, lines: i64) {
        self.line = if lines < 0 {
            self.line.saturating_sub(lines.unsigned_abs())
        } else {
            self.line.wrapping_add(lines.unsigned_abs())
        };
    }

    // Executes an instruction, and says whether it gives a row.
    fn execute(&mut self, header: &Header<'_>, instruction: Instruction<'_>) -> Option<bool> {
        match instruction {
            Instruction::Special(opcode) => {
                let adjusted = opcode - header.opcode_base;
                self.advance(header, u64::from(adjusted / header.line_range))?;
                self.advance_line(i64::from(header.line_base) + i64::from(adjusted % header.line_range));
                return Some(true);
            }
            Instruction::Copy => return Some(true),
            Instruction::AdvancePc(operations) => self.advance(header, operations)?,
            Instruction::AdvanceLine(lines) => self.advance_line(lines),
            Instruction::SetFile(file) => self.file = file,
            Instruction::SetColumn(column) => self.column = column,
            Instruction::NegateStatement => self.is_stmt = !self.is_stmt,
            Instruction::SetBasicBlock => self.basic_block = true,
            Instruction::ConstAddPc => {
                let adjusted = 255 - header.opcode_base;
                self.advance(header, u64::from(adjusted / header.line_range))?;
            }
            Instruction::FixedAddPc(bytes) => {
                self.address = self.address.checked_add(bytes.into())?;
                self.op_index = 0;
            }
            Instruction::SetPrologueEnd => self.prologue_end = true,
            Instruction::SetEpilogueBegin => self.epilogue_begin = true,
            Instruction::SetIsa(isa) => self.isa = isa,
            Instruction::EndSequence => {
                self.end_sequence = true;
                return Some(true);
            }
            Instruction::SetAddress(address) => {
                self.is_hidden = address < self.address || address >= u64::MAX - 1;
                if !self.is_hidden {
                    self.address = address;
                    self.op_index = 0;
                }
            }
            Instruction::SetDiscriminator(discriminator) => self.discriminator = discriminator,
            Instruction::DefineFile { .. } | Instruction::Unknown { .. } => {}
        }
        Some(false)
    }
}

fn with_row(sum: u64, row: &Row) -> u64 {
    let sum = mix(mix(sum, row.address), row.file);
    let sum = mix(mix(sum, row.line), row.column);
    let sum = mix(mix(sum, row.discriminator), row.is_stmt.into());
    mix(sum, row.end_sequence.into())
}

fn rows(section: &[u8]) -> Option<u64> {
    let header = header(section)?;
    let mut row = Row::start(&header);
    let (mut sum, mut at) = (0, 0);
    while at < header.program.len() {
        let instruction = next(&header, &mut at)?;
        if row.execute(&header, instruction)? {
            if !row.is_hidden {
                sum = with_row(sum, &row);
            }
            row.clear(&header);
        }
    }
    Some(sum)
}

#[inline(never)]
fn report(name: &str, measure: impl FnOnce() -> Option<u64>) {
    let start = Instant::now();
    let sum = measure();
    let took = start.elapsed().as_micros();
    match sum {
        Some(sum) => println!("{name}: {sum:016x}"),
        None => println!("{name}: refused"),
    }
    eprintln!("{name}: {took} us");
}

fn main() {
    let size = std::env::args().nth(1).and_then(|word| word.parse().ok()).unwrap_or(4096);
    let section = section(size);
    report("instructions", || instructions(&section));
    report("rows", || rows(&section));
    report("rows_at_once", || rows(&section));
    let section = headers_section(size);
    report("headers", || headers(&section));
    report("checks", || checks(&section));
}
