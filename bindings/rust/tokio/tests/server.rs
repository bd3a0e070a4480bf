//! A client over TCP of redis-server, if it is installed.

use futures_util::{stream, SinkExt, StreamExt};
use resp::{Limits, Version};
use resp_tokio::{Client, Frame, Received, ReplyError};
use std::net::TcpListener;
use std::process::{Child, Command, Stdio};
use std::time::Duration;
use tokio::net::TcpStream;
use tokio_util::codec::Framed;

/// A redis-server, which ends with the test.
struct Server {
    process: Child,
    port: u16,
}

impl Drop for Server {
    fn drop(&mut self) {
        let _ = self.process.kill();
        let _ = self.process.wait();
    }
}

/// Starts a server at a free port, or returns `None` if there is no redis-server.
fn server() -> Option<Server> {
    let port = TcpListener::bind("127.0.0.1:0").unwrap().local_addr().unwrap().port();
    let mut command = Command::new("redis-server");
    command.args(["--port", &port.to_string(), "--save", "", "--bind", "127.0.0.1"]);
    let process = command.stdout(Stdio::null()).spawn().ok()?;
    let server = Server { process, port };
    for _ in 0..100 {
        if std::net::TcpStream::connect(("127.0.0.1", port)).is_ok() {
            return Some(server);
        }
        std::thread::sleep(Duration::from_millis(50));
    }
    panic!("redis-server does not listen");
}

/// Sends these commands at once, and returns what the server sends up to the reply to the last of them.
async fn sent(framed: &mut Framed<TcpStream, Client>, commands: &[&[&str]]) -> Vec<Received> {
    let last = commands.len();
    framed.send_all(&mut stream::iter(commands.iter().map(|command| Ok(*command)))).await.unwrap();
    let (mut found, mut replies) = (Vec::new(), 0);
    while replies < last {
        let received = framed.next().await.unwrap().unwrap();
        replies += usize::from(matches!(received, Received::Reply(..)));
        found.push(received);
    }
    found
}

/// The replies without their numbers.
fn replies(found: Vec<Received>) -> Vec<Result<Frame, ReplyError>> {
    let reply = |received| match received {
        Received::Reply(_, reply) => reply,
        Received::Push(members) => panic!("{members:?}"),
    };
    found.into_iter().map(reply).collect()
}

fn bulk(text: &'static str) -> Frame {
    Frame::Bulk(text.into())
}

#[test]
fn replies_of_redis_server() {
    let server = match server() {
        Some(server) => server,
        None => return println!("skipped, since redis-server is not installed"),
    };
    let runtime = tokio::runtime::Builder::new_current_thread().enable_io().build().unwrap();
    runtime.block_on(async {
        let stream = TcpStream::connect(("127.0.0.1", server.port)).await.unwrap();
        let mut framed = Framed::new(stream, Client::new(&Limits::default()).unwrap());
        let value = "v".repeat(100_000);
        let found = replies(sent(&mut framed, &[&["SET", "k", &value], &["GET", "k"], &["INCR", "n"], &["GET", "none"]]).await);
        assert_eq!(found, [Ok(Frame::Simple("OK".into())), Ok(Frame::Bulk(value.into())), Ok(Frame::Int(1)), Ok(Frame::Null)]);
        assert!(replies(sent(&mut framed, &[&["INCR", "k"]]).await)[0].is_err());

        // The reply to HELLO 3 is in version 3, and so are those after it in the same pipeline.
        let found = replies(sent(&mut framed, &[&["HELLO", "3"], &["HSET", "h", "f", "1"], &["HGETALL", "h"]]).await);
        assert!(matches!(found[0], Ok(Frame::Map(_))));
        assert_eq!(found[2], Ok(Frame::Map(vec![(bulk("f"), bulk("1"))])));
        assert_eq!(framed.codec().version(), Version::Three);
        let found = replies(sent(&mut framed, &[&["ZADD", "z", "1.5", "m"], &["ZSCORE", "z", "m"]]).await);
        assert_eq!(found[1], Ok(Frame::Double("1.5".into())));

        // A push answers SUBSCRIBE, so the last reply is that to PUBLISH.
        framed.send(&["SUBSCRIBE", "c"][..]).await.unwrap();
        let found = sent(&mut framed, &[&["PUBLISH", "c", "hello"]]).await;
        assert_eq!(found[0], Received::Push(vec![bulk("subscribe"), bulk("c"), Frame::Int(1)]));
        assert_eq!(found[1], Received::Push(vec![bulk("message"), bulk("c"), bulk("hello")]));
        assert_eq!(found[2], Received::Reply(12, Ok(Frame::Int(1))));
    });
}
