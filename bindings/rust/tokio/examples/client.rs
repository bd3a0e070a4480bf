//! A client of redis-server: client ADDRESS. It says HELLO 3, sends a pipeline, and prints replies and pushes.

use futures_util::{stream, SinkExt, StreamExt};
use resp::Limits;
use resp_tokio::{Client, Frame, Received};
use std::error::Error;
use tokio::net::TcpStream;
use tokio_util::codec::Framed;

const PIPELINE: [&[&str]; 6] = [
    &["DEL", "n"],
    &["INCR", "n"],
    &["LPUSH", "n", "x"],
    &["GET", "n"],
    &["SUBSCRIBE", "news"],
    &["PUBLISH", "news", "hello"],
];

/// Prints what arrives, until the reply to the command with this number.
async fn print_until(framed: &mut Framed<TcpStream, Client>, last: u64) -> Result<(), Box<dyn Error>> {
    while let Some(received) = framed.next().await {
        let (number, reply) = match received? {
            Received::Push(members) => {
                println!("push {members:?}");
                continue;
            }
            Received::Reply(number, reply) => (number, reply),
        };
        match reply {
            Ok(Frame::Map(fields)) => println!("reply {number}: a map of {} pairs", fields.len()),
            Ok(frame) => println!("reply {number}: {frame:?}"),
            Err(error) => println!("reply {number}: failed, {error}"),
        }
        if number == last {
            return Ok(());
        }
    }
    Err("the server has closed the connection".into())
}

async fn run(address: &str) -> Result<(), Box<dyn Error>> {
    let stream = TcpStream::connect(address).await?;
    let mut framed = Framed::new(stream, Client::new(&Limits::default())?);
    framed.send(&["HELLO", "3"][..]).await?;
    print_until(&mut framed, 1).await?;
    framed.send_all(&mut stream::iter(PIPELINE.map(Ok))).await?;
    print_until(&mut framed, 1 + PIPELINE.len() as u64).await
}

fn main() -> Result<(), Box<dyn Error>> {
    let address = std::env::args().nth(1).ok_or("usage: client ADDRESS")?;
    let runtime = tokio::runtime::Builder::new_current_thread().enable_io().build()?;
    runtime.block_on(run(&address))
}
