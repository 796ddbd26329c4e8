//! The write and the read of `write_read.c`, in Rust without a crate: the library's functions by an `extern` block, and
//! a core that closes itself around them. It prints the replies as ./ddr sim does.
//!
//!     write_read CONFIG       CONFIG is a file, such as examples/sample.config
use std::marker::PhantomData;
use std::process::ExitCode;

const OK: i32 = 0;
const NOTHING: i32 = 7;
const WRITE: u32 = 1;

/// `ddr_core` of include/ddr.h.
#[repr(C)]
struct Slot {
    open: bool,
    at: *mut u8,
}

/// `ddr_reply`.
#[repr(C)]
#[derive(Default)]
struct Head {
    number: u64,
    addr: u64,
    bytes: u64,
    length: u32,
    kind: u32,
    accepted: u64,
    issued: u64,
    due: u64,
    released: u64,
}

extern "C" {
    fn ddr_c_open(
        core: *mut Slot,
        text: *const u8,
        length: usize,
        message: *mut u8,
        room: usize,
        whole: *mut u64,
    ) -> i32;
    fn ddr_c_read(core: *mut Slot, port: u32, addr: u64, length: u32, number: *mut u64) -> i32;
    fn ddr_c_write(
        core: *mut Slot,
        port: u32,
        addr: u64,
        bytes: *const u8,
        length: usize,
        number: *mut u64,
    ) -> i32;
    fn ddr_c_rounds(core: *mut Slot, count: u64, made: *mut u64) -> i32;
    fn ddr_c_next(
        core: *mut Slot,
        port: u32,
        reply: *mut Head,
        buffer: *mut u8,
        room: usize,
    ) -> i32;
    fn ddr_c_close(core: *mut Slot) -> i32;
}

/// A call that answered another code than `OK`, and the text of a configuration's refusal.
#[derive(Debug)]
struct Refused {
    code: i32,
    text: String,
}

/// A reply with its bytes.
struct Reply {
    head: Head,
    bytes: [u8; 64],
}

/// An open core. The slot is in a box, so that it stays where it is, and is used by one thread.
struct Core {
    slot: Box<Slot>,
    one_thread: PhantomData<*mut ()>,
}

fn checked(code: i32) -> Result<(), Refused> {
    match code {
        OK => Ok(()),
        code => Err(Refused {
            code,
            text: String::new(),
        }),
    }
}

impl Core {
    fn open(config: &str) -> Result<Core, Refused> {
        let mut slot = Box::new(Slot {
            open: false,
            at: std::ptr::null_mut(),
        });
        let mut message = [0u8; 128];
        let mut whole = 0;
        // SAFETY: the slot is zeroed and in place, and each buffer has the length that is named.
        let code = unsafe {
            ddr_c_open(
                &mut *slot,
                config.as_ptr(),
                config.len(),
                message.as_mut_ptr(),
                message.len(),
                &mut whole,
            )
        };
        if code != OK {
            let shown = message.len().min(whole as usize);
            return Err(Refused {
                code,
                text: String::from_utf8_lossy(&message[..shown]).into_owned(),
            });
        }
        Ok(Core {
            slot,
            one_thread: PhantomData,
        })
    }

    fn read(&mut self, port: u32, addr: u64, length: u32) -> Result<u64, Refused> {
        let mut number = 0;
        // SAFETY: the slot is one that only the library changed, as in each call below.
        checked(unsafe { ddr_c_read(&mut *self.slot, port, addr, length, &mut number) })?;
        Ok(number)
    }

    fn write(&mut self, port: u32, addr: u64, bytes: &[u8]) -> Result<u64, Refused> {
        let mut number = 0;
        checked(unsafe {
            ddr_c_write(
                &mut *self.slot,
                port,
                addr,
                bytes.as_ptr(),
                bytes.len(),
                &mut number,
            )
        })?;
        Ok(number)
    }

    fn rounds(&mut self, count: u64) -> Result<(), Refused> {
        let mut made = 0;
        checked(unsafe { ddr_c_rounds(&mut *self.slot, count, &mut made) })
    }

    /// The oldest reply of a port, if it is ready.
    fn next(&mut self, port: u32) -> Result<Option<Reply>, Refused> {
        let mut reply = Reply {
            head: Head::default(),
            bytes: [0; 64],
        };
        match unsafe {
            ddr_c_next(
                &mut *self.slot,
                port,
                &mut reply.head,
                reply.bytes.as_mut_ptr(),
                reply.bytes.len(),
            )
        } {
            NOTHING => Ok(None),
            code => checked(code).map(|()| Some(reply)),
        }
    }
}

impl Drop for Core {
    fn drop(&mut self) {
        unsafe { ddr_c_close(&mut *self.slot) };
    }
}

fn run(config: &str) -> Result<(), Refused> {
    let mut core = Core::open(config)?;
    core.write(0, 0, &[0x0a, 0x0b, 0x0c, 0x0d])?;
    core.read(0, 0, 4)?;
    let mut left = 2;
    while left > 0 {
        core.rounds(1)?;
        while let Some(Reply { head, bytes }) = core.next(0)? {
            let data: String = bytes[..head.bytes as usize]
                .iter()
                .map(|byte| format!("{byte:02x}"))
                .collect();
            match head.kind {
                WRITE => println!("0 {} write {}", head.number, head.addr),
                _ => println!("0 {} read {} {data}", head.number, head.addr),
            }
            left -= 1;
        }
    }
    Ok(())
}

fn main() -> ExitCode {
    let Some(config) = std::env::args()
        .nth(1)
        .and_then(|name| std::fs::read_to_string(name).ok())
    else {
        eprintln!("usage: write_read CONFIG");
        return ExitCode::from(2);
    };
    match run(&config) {
        Ok(()) => ExitCode::SUCCESS,
        Err(refused) => {
            eprintln!("{}: {}", refused.code, refused.text);
            ExitCode::FAILURE
        }
    }
}
