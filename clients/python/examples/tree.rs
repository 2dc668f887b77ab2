//! Reads a text of JSON into a tree, adds up its numbers, and writes it again, with a fault that is to be found: a text with
//! certain escapes breaks the tree.
#![no_std]
#![no_main]

use core::ptr;

#[panic_handler]
fn panic(_: &core::panic::PanicInfo) -> ! {
    loop {}
}

#[repr(C)]
struct Buffer {
    data: *const u8,
    length: u32,
}

#[link(wasm_import_module = "wasi_snapshot_preview1")]
extern "C" {
    fn fd_write(fd: u32, buffers: *const Buffer, count: u32, written: *mut u32) -> u32;
    fn proc_exit(code: u32) -> !;
}

#[derive(Clone, Copy, PartialEq)]
#[repr(u32)]
enum Kind {
    Object,
    Array,
    Text,
    Number,
    True,
    False,
    Null,
}

/// A value, and the next one in the same object or array. A text is where its bytes are, and how many they are.
#[repr(C)]
struct Value {
    next: *mut Value,
    kind: Kind,
    name: Place,
    text: Place,
    first: *mut Value,
    number: i32,
}

#[derive(Clone, Copy)]
#[repr(C)]
struct Place {
    at: *mut u8,
    length: usize,
}

const NOWHERE: Place = Place { at: ptr::null_mut(), length: 0 };
const ARENA: usize = 8192;
const MOST_DEPTH: u32 = 16;

static TEXT: &[u8] = br#"{ "title": "Teas and \"coffees\"",
  "year": 2024, "draft": false, "editor": null,
  "items": [
    { "name": "tea", "grams": 250, "price": "4 \u20ac" },
    { "name": "ma\u00efs\ttea", "grams": -12, "tags": [] },
    { "name": "coffee", "grams": 500, "rating": "5 stars \u2605\u2605\u2605\u2605\u2605" }
  ],
  "checked": [true, [1, [2, [3, []]]]] }
"#;

#[repr(align(4))]
struct Arena([u8; ARENA]);

static mut MEMORY: Arena = Arena([0; ARENA]);

/// Where the parser is, and how much memory it has given out.
struct Parser {
    at: usize,
    line: u32,
    depth: u32,
    used: usize,
}

struct Output {
    data: [u8; 256],
    length: usize,
}

static mut PARSER: Parser = Parser { at: 0, line: 1, depth: 0, used: 0 };
static mut OUTPUT: Output = Output { data: [0; 256], length: 0 };

impl Output {
    #[inline(never)]
    fn flush(&mut self) {
        let buffer = Buffer { data: self.data.as_ptr(), length: self.length as u32 };
        let mut written = 0;
        unsafe { fd_write(1, &buffer, 1, &mut written) };
        self.length = 0;
    }

    #[inline(never)]
    fn put(&mut self, c: u8) {
        if self.length == 256 {
            self.flush();
        }
        self.data[self.length & 255] = c;
        self.length += 1;
    }

    fn put_words(&mut self, words: &[u8]) {
        for c in words {
            self.put(*c);
        }
    }

    fn put_number(&mut self, number: i32) {
        let mut rest = number.unsigned_abs();
        let (mut digits, mut count) = ([0u8; 12], 0);
        if number < 0 {
            self.put(b'-');
        }
        loop {
            digits[count & 7] = b'0' + (rest % 10) as u8;
            rest /= 10;
            count += 1;
            if rest == 0 {
                break;
            }
        }
        while count > 0 {
            count -= 1;
            self.put(digits[count & 7]);
        }
    }

    fn put_quoted(&mut self, place: Place) {
        self.put(b'"');
        for at in 0..place.length {
            let c = unsafe { *place.at.add(at) };
            if c == b'"' || c == b'\\' {
                self.put(b'\\');
            }
            self.put(c);
        }
        self.put(b'"');
    }

    fn put_value(&mut self, value: &Value) {
        match value.kind {
            Kind::Text => self.put_quoted(value.text),
            Kind::Number => self.put_number(value.number),
            Kind::True => self.put_words(b"true"),
            Kind::False => self.put_words(b"false"),
            Kind::Null => self.put_words(b"null"),
            Kind::Object => self.put_items(value, b'{', b'}'),
            Kind::Array => self.put_items(value, b'[', b']'),
        }
    }

    #[inline(never)]
    fn put_items(&mut self, value: &Value, begin: u8, end: u8) {
        self.put(begin);
        let mut item = value.first;
        while !item.is_null() {
            let found = unsafe { &*item };
            if value.kind == Kind::Object {
                self.put_quoted(found.name);
                self.put(b':');
            }
            self.put_value(found);
            item = found.next;
            if !item.is_null() {
                self.put(b',');
            }
        }
        self.put(end);
    }
}

#[inline(never)]
fn fail(why: &str) -> ! {
    unsafe {
        OUTPUT.put_words(b"line ");
        OUTPUT.put_number(PARSER.line as i32);
        OUTPUT.put_words(b": ");
        OUTPUT.put_words(why.as_bytes());
        OUTPUT.flush();
        proc_exit(1)
    }
}

impl Parser {
    /// Memory, which is not given back.
    #[inline(never)]
    fn allocate(&mut self, size: usize) -> *mut u8 {
        let found = self.used;
        self.used += (size + 3) & !3;
        if self.used > ARENA {
            fail("no memory is left");
        }
        unsafe { MEMORY.0.as_mut_ptr().add(found) }
    }

    #[inline(never)]
    fn new_value(&mut self, kind: Kind) -> *mut Value {
        let value = self.allocate(core::mem::size_of::<Value>()) as *mut Value;
        let (next, first) = (ptr::null_mut(), ptr::null_mut());
        unsafe { value.write(Value { next, kind, name: NOWHERE, text: NOWHERE, first, number: 0 }) };
        value
    }

    fn peek(&self) -> u8 {
        TEXT.get(self.at).copied().unwrap_or(0)
    }

    #[inline(never)]
    fn skip_space(&mut self) {
        while matches!(self.peek(), b' ' | b'\n' | b'\t') {
            if self.peek() == b'\n' {
                self.line += 1;
            }
            self.at += 1;
        }
    }

    /// Whether the next character is this one, which is passed over then.
    #[inline(never)]
    fn accept(&mut self, c: u8) -> bool {
        self.skip_space();
        let is_there = self.peek() == c;
        self.at += is_there as usize;
        is_there
    }

    fn expect(&mut self, c: u8) {
        if !self.accept(c) {
            fail("another character was expected");
        }
    }

    /// The number of an escape, of four digits from an index on.
    fn hex_number(&self, at: usize) -> u32 {
        let mut number = 0;
        for c in TEXT.iter().skip(at).take(4) {
            number = 16 * number + (*c as char).to_digit(16).unwrap_or(0);
        }
        number
    }

    /// How many bytes the text at the parser takes. The fault: an escape of a number may take three.
    #[inline(never)]
    fn length_of_text(&self) -> usize {
        let (mut at, mut length) = (self.at, 0);
        while let Some(c) = TEXT.get(at) {
            match (*c, TEXT.get(at + 1)) {
                (b'"', _) => return length,
                (b'\\', Some(b'u')) => {
                    length += 2;
                    at += 6;
                }
                (b'\\', _) => {
                    length += 1;
                    at += 2;
                }
                _ => {
                    length += 1;
                    at += 1;
                }
            }
        }
        fail("a text has no end")
    }

    /// Reads the rest of a text to a place; how many bytes it takes.
    #[inline(never)]
    fn read_text(&mut self, place: *mut u8) -> usize {
        let mut length = 0;
        while !self.accept_end() {
            let number = self.next_of_text();
            length += encode(unsafe { place.add(length) }, number);
        }
        length
    }

    fn accept_end(&mut self) -> bool {
        let is_end = self.peek() == b'"';
        self.at += is_end as usize;
        is_end
    }

    /// The next character of a text.
    fn next_of_text(&mut self) -> u32 {
        let c = self.peek();
        self.at += 1;
        if c != b'\\' {
            return c as u32;
        }
        let escaped = self.peek();
        self.at += 1;
        match escaped {
            b'n' => 10,
            b't' => 9,
            b'u' => {
                self.at += 4;
                self.hex_number(self.at - 4)
            }
            _ => escaped as u32,
        }
    }

    fn read_name(&mut self) -> Place {
        self.expect(b'"');
        let at = self.allocate(self.length_of_text());
        let length = self.read_text(at);
        self.expect(b':');
        Place { at, length }
    }

    #[inline(never)]
    fn read_number(&mut self) -> i32 {
        let is_negative = self.accept(b'-');
        let mut number = 0;
        while self.peek().is_ascii_digit() {
            number = 10 * number + (self.peek() - b'0') as i32;
            self.at += 1;
        }
        if is_negative {
            -number
        } else {
            number
        }
    }

    #[inline(never)]
    fn read_items(&mut self, kind: Kind, end: u8) -> *mut Value {
        let value = self.new_value(kind);
        let mut last = unsafe { ptr::addr_of_mut!((*value).first) };
        self.depth += 1;
        if self.depth > MOST_DEPTH {
            fail("the text is too deep");
        }
        while !self.accept(end) {
            let name = if kind == Kind::Object { self.read_name() } else { NOWHERE };
            let item = self.read_value();
            unsafe {
                (*item).name = name;
                *last = item;
                last = ptr::addr_of_mut!((*item).next);
            }
            self.accept(b',');
        }
        self.depth -= 1;
        value
    }

    #[inline(never)]
    fn read_text_value(&mut self) -> *mut Value {
        let at = self.allocate(self.length_of_text());
        let value = self.new_value(Kind::Text);
        let length = self.read_text(at);
        unsafe { (*value).text = Place { at, length } };
        value
    }

    fn read_word(&mut self, kind: Kind, length: usize) -> *mut Value {
        self.at += length;
        self.new_value(kind)
    }

    #[inline(never)]
    fn read_value(&mut self) -> *mut Value {
        self.skip_space();
        match self.peek() {
            b'{' => {
                self.at += 1;
                self.read_items(Kind::Object, b'}')
            }
            b'[' => {
                self.at += 1;
                self.read_items(Kind::Array, b']')
            }
            b'"' => {
                self.at += 1;
                self.read_text_value()
            }
            b't' => self.read_word(Kind::True, 4),
            b'f' => self.read_word(Kind::False, 5),
            b'n' => self.read_word(Kind::Null, 4),
            _ => {
                let number = self.read_number();
                let value = self.new_value(Kind::Number);
                unsafe { (*value).number = number };
                value
            }
        }
    }
}

/// Writes a character in UTF-8; how many bytes it takes.
#[inline(never)]
fn encode(to: *mut u8, number: u32) -> usize {
    let put = |at: usize, c: u32| unsafe { *to.add(at) = c as u8 };
    if number < 0x80 {
        put(0, number);
        return 1;
    }
    if number < 0x800 {
        put(0, 0xc0 | number >> 6);
        put(1, 0x80 | number & 0x3f);
        return 2;
    }
    put(0, 0xe0 | number >> 12);
    put(1, 0x80 | number >> 6 & 0x3f);
    put(2, 0x80 | number & 0x3f);
    3
}

/// A walk through a tree, which adds up its numbers: the item that is next, and those to go on with after it.
struct Walk {
    item: *const Value,
    outer: [*const Value; 16],
    depth: usize,
    sum: i32,
}

static mut WALK: Walk = Walk { item: ptr::null(), outer: [ptr::null(); 16], depth: 0, sum: 0 };

#[inline(never)]
fn step(walk: &mut Walk) {
    let found = unsafe { &*walk.item };
    if matches!(found.kind, Kind::Object | Kind::Array) {
        walk.outer[walk.depth & 15] = found.next;
        walk.depth += 1;
        walk.item = found.first;
        return;
    }
    if found.kind == Kind::Number {
        walk.sum += found.number;
    }
    walk.item = found.next;
}

fn sum_of(walk: &mut Walk, first: *const Value) -> i32 {
    walk.item = first;
    loop {
        while !walk.item.is_null() {
            step(walk);
        }
        if walk.depth == 0 {
            return walk.sum;
        }
        walk.depth -= 1;
        walk.item = walk.outer[walk.depth & 15];
    }
}

#[no_mangle]
pub extern "C" fn _start() {
    let (parser, output, walk) = unsafe { (&mut PARSER, &mut OUTPUT, &mut WALK) };
    let tree = unsafe { &*parser.read_value() };
    output.put_number(sum_of(walk, tree.first));
    output.put(b'\n');
    output.put_value(tree);
    output.put(b'\n');
    output.flush();
}
