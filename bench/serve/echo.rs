// A bare echo server: what comes over a connection goes back over it, one thread a connection.

use std::io::{Read, Write};
use std::net::{TcpListener, TcpStream};
use std::thread;

/// Listens on so many ports, and never returns.
pub fn serve(first: u16, ports: usize) -> std::io::Result<()> {
    let mut doors = Vec::new();
    for number in 0..ports {
        let listener = TcpListener::bind(("127.0.0.1", first + number as u16))?;
        doors.push(thread::spawn(move || {
            for stream in listener.incoming().flatten() {
                thread::spawn(move || echo(stream));
            }
        }));
    }
    for door in doors {
        door.join().unwrap();
    }
    Ok(())
}

fn echo(mut stream: TcpStream) {
    let _ = stream.set_nodelay(true);
    let mut piece = [0; 4096];
    while let Ok(count) = stream.read(&mut piece) {
        if count == 0 || stream.write_all(&piece[..count]).is_err() {
            return;
        }
    }
}
