//! A server that holds the archives, a comparison's server.c, which tools/on-host runs. A batch is written by one thread and its
//! answers are read by another, so that neither pipe can fill up for good.

use std::io::{self, BufReader, BufWriter};
use std::path::Path;
use std::process::{Child, ChildStdin, ChildStdout, Command, Stdio};

const BUFFER: usize = 1 << 20;

/// An emulator does `rep stosb` and `rep movsb` a byte at a time: with them a bound, which clears its places, takes fifty
/// times as long. So libc is told to use them from a gigabyte up.
const TUNABLES: &str = "glibc.cpu.x86_rep_stosb_threshold=1000000000:glibc.cpu.x86_rep_movsb_threshold=1000000000";

pub type Requests = BufWriter<ChildStdin>;
pub type Answers = BufReader<ChildStdout>;

pub struct Server {
    child: Child,
    requests: Option<Requests>,
    answers: Answers,
}

impl Server {
    /// Starts plain/target/server/NAME.
    pub fn start(name: &str) -> Server {
        let here = Path::new(env!("CARGO_MANIFEST_DIR"));
        let program = here.join("../target/server").join(name);
        assert!(program.exists(), "there is no {}: tools/build-server makes it", program.display());
        let mut child = Command::new(here.join("../../tools/on-host"))
            .arg(program)
            .env("GLIBC_TUNABLES", TUNABLES)
            .stdin(Stdio::piped())
            .stdout(Stdio::piped())
            .spawn()
            .expect("tools/on-host starts the server");
        let requests = child.stdin.take().map(|pipe| BufWriter::with_capacity(BUFFER, pipe));
        let answers = BufReader::with_capacity(BUFFER, child.stdout.take().expect("the server's output is a pipe"));
        Server { child, requests, answers }
    }

    /// Sends a batch of calls, which ends with a flush, and receives the answer of each.
    pub fn answers<C: Sync, A>(
        &mut self,
        calls: &[C],
        send: impl FnOnce(&mut Requests, &[C]) -> io::Result<()> + Send,
        receive: impl Fn(&mut Answers, &C) -> io::Result<A>,
    ) -> Vec<A> {
        let Server { requests, answers, .. } = self;
        let requests = requests.as_mut().expect("the server's input is a pipe");
        std::thread::scope(|scope| {
            let writing = scope.spawn(|| send(requests, calls));
            let read: io::Result<Vec<A>> = calls.iter().map(|call| receive(answers, call)).collect();
            let read = read.expect("the server answers every call");
            writing.join().expect("the writing thread ends").expect("the server reads every call");
            read
        })
    }
}

impl Drop for Server {
    /// The server ends at the end of its input.
    fn drop(&mut self) {
        self.requests = None;
        let _ = self.child.wait();
    }
}
