// A program as the tests run it.
use std::io::Write;
use std::process::{Command, Stdio};

// What a program prints for a text on its standard input; it may answer before it has read a long text to its end. [11.8] It ends well
// and complains of nothing.
pub fn output(mut command: Command, text: &[u8]) -> String {
    let mut child = command.stdin(Stdio::piped()).stdout(Stdio::piped()).stderr(Stdio::piped()).spawn().unwrap();
    let _ = child.stdin.take().unwrap().write_all(text);
    let ended = child.wait_with_output().unwrap();
    assert!(ended.status.success() && ended.stderr.is_empty(), "{command:?} ends with {ended:?}");
    String::from_utf8(ended.stdout).unwrap()
}
