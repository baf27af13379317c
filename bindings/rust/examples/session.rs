//! Replays one derivation and prints the six fields of its answer.
const SESSION: &[u8] = b"types=1\nbasis=1:0\nvar=O 1:0 1:0\nleft=22 18 15 1:0 16 3:0\nright=16 3:0\nstep=L 71 1 0 0\nstep=L 102 0 0 0\nend=2\n";

fn main() {
    let answer = fejogbu::replay(SESSION, &mut fejogbu::Work::new());
    println!("code={}", answer.code.number());
    println!("side={}", answer.side.map_or(0, |side| side.number()));
    println!("step={}\nat={}", answer.step, answer.at);
    println!("left={}\nright={}", answer.left, answer.right);
}
