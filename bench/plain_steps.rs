// A plain interpreter of the loop that `local_bench` runs: a match on the same instructions over a
// vector of values.
use std::env;

#[derive(Clone, Copy, Debug, PartialEq)]
#[allow(dead_code)]
enum Value {
    Int(i32),
    Long(i64),
    Half,
    Null,
    Ref(u64),
}

#[allow(dead_code)]
enum Instruction {
    Increment(u16, i32),
    Load(u16),
    Store(u16),
    Add,
    Multiply,
    IfLess(u32),
    Goto(u32),
    Return,
}

struct Insn {
    pc: u32,
    instruction: Instruction,
}

fn int(value: Value) -> i32 {
    match value {
        Value::Int(n) => n,
        _ => panic!("not an int"),
    }
}

fn run(code: &[Insn], locals: &mut [Value], stack: &mut Vec<Value>) -> u32 {
    let mut steps = 0;
    let mut at = 0;
    loop {
        let target = match &code[at].instruction {
            Instruction::Increment(local, by) => {
                let local = *local as usize;
                locals[local] = Value::Int(int(locals[local]).wrapping_add(*by));
                None
            }
            Instruction::Load(local) => {
                stack.push(locals[*local as usize]);
                None
            }
            Instruction::Store(local) => {
                locals[*local as usize] = stack.pop().unwrap();
                None
            }
            Instruction::Add => {
                let b = int(stack.pop().unwrap());
                let a = int(stack.pop().unwrap());
                stack.push(Value::Int(a.wrapping_add(b)));
                None
            }
            Instruction::Multiply => {
                let b = int(stack.pop().unwrap());
                let a = int(stack.pop().unwrap());
                stack.push(Value::Int(a.wrapping_mul(b)));
                None
            }
            Instruction::IfLess(target) => {
                let b = int(stack.pop().unwrap());
                let a = int(stack.pop().unwrap());
                (a < b).then_some(*target)
            }
            Instruction::Goto(target) => Some(*target),
            Instruction::Return => return steps,
        };
        at = match target {
            None => at + 1,
            Some(pc) => code.iter().position(|insn| insn.pc == pc).unwrap(),
        };
        steps += 1;
    }
}

fn main() {
    let count = env::args().nth(1).unwrap().parse().unwrap();
    let code = [
        (0, Instruction::Increment(2, 1)),
        (3, Instruction::Load(1)),
        (4, Instruction::Load(2)),
        (5, Instruction::Add),
        (6, Instruction::Store(1)),
        (7, Instruction::Load(2)),
        (8, Instruction::Load(0)),
        (9, Instruction::IfLess(0)),
        (12, Instruction::Return),
    ]
    .map(|(pc, instruction)| Insn { pc, instruction });
    let mut locals = [Value::Int(count), Value::Int(0), Value::Int(0)];
    let steps = run(&code, &mut locals, &mut Vec::new());
    println!("{steps} steps, {:?}", locals[1]);
}
