//! A plain interpreter of the instructions of five processes, over as many items as it is told: the microseconds of each, the least of
//! five readings. `bench/turns` sets it beside the turns of the project.

use std::time::Instant;

#[derive(Clone, Copy)]
enum Operator {
    Add,
    Subtract,
    Multiply,
    Less,
    Equal,
}

#[derive(Clone, Copy)]
enum Instruction {
    Constant(i64),
    Load(usize),
    Store(usize),
    Apply(Operator),
    Get(usize),
    Put,
    Jump(usize),
    JumpIfZero(usize),
    Repeat(u16),
    Again(usize),
}

use Instruction::*;
use Operator::*;

/// An expression of a process.
enum Expr {
    Number(i64),
    Variable(usize),
    Of(Box<Expr>, Operator, Box<Expr>),
}

enum Statement {
    Assign(usize, Expr),
    PutOut(Expr),
    If(Expr, Vec<Statement>, Vec<Statement>),
    Repeated(u16, Vec<Statement>),
}

fn number(value: i64) -> Expr {
    Expr::Number(value)
}

fn of(left: Expr, operator: Operator, right: Expr) -> Expr {
    Expr::Of(Box::new(left), operator, Box::new(right))
}

fn a() -> Expr {
    Expr::Variable(0)
}

fn v() -> Expr {
    Expr::Variable(1)
}

fn emit_expr(code: &mut Vec<Instruction>, expr: &Expr) {
    match expr {
        Expr::Number(value) => code.push(Constant(*value)),
        Expr::Variable(variable) => code.push(Load(*variable)),
        Expr::Of(left, operator, right) => {
            emit_expr(code, left);
            emit_expr(code, right);
            code.push(Apply(*operator));
        }
    }
}

fn emit(code: &mut Vec<Instruction>, statement: &Statement) {
    match statement {
        Statement::Assign(variable, expr) => {
            emit_expr(code, expr);
            code.push(Store(*variable));
        }
        Statement::PutOut(expr) => {
            emit_expr(code, expr);
            code.push(Put);
        }
        Statement::If(test, first, second) => {
            emit_expr(code, test);
            let choice = code.len();
            code.push(JumpIfZero(0));
            first.iter().for_each(|it| emit(code, it));
            let behind = code.len();
            code.push(Jump(0));
            code[choice] = JumpIfZero(code.len());
            second.iter().for_each(|it| emit(code, it));
            code[behind] = Jump(code.len());
        }
        Statement::Repeated(times, body) => {
            code.push(Repeat(*times));
            let inside = code.len();
            body.iter().for_each(|it| emit(code, it));
            code.push(Again(inside));
        }
    }
}

/// A loop of a get into v and these statements.
fn looped(body: &[Statement]) -> Vec<Instruction> {
    let mut code = vec![Get(1)];
    body.iter().for_each(|it| emit(&mut code, it));
    code.push(Jump(0));
    code
}

fn apply(operator: Operator, left: i64, right: i64) -> i64 {
    match operator {
        Add => left.wrapping_add(right),
        Subtract => left.wrapping_sub(right),
        Multiply => left.wrapping_mul(right),
        Less => i64::from(left < right),
        Equal => i64::from(left == right),
    }
}

/// Runs the code until the items are over. Gives what was put.
fn run(code: &[Instruction], items: &[i64]) -> Vec<i64> {
    let mut out = Vec::new();
    let mut variables = vec![0i64; 2];
    let mut stack: Vec<i64> = Vec::with_capacity(16);
    let mut passes: Vec<u16> = Vec::with_capacity(16);
    let mut next = 0;
    let mut at = 0;
    loop {
        match code[at] {
            Constant(value) => stack.push(value),
            Load(variable) => stack.push(variables[variable]),
            Store(variable) => variables[variable] = stack.pop().unwrap_or(0),
            Apply(operator) => {
                let right = stack.pop().unwrap_or(0);
                let left = stack.pop().unwrap_or(0);
                stack.push(apply(operator, left, right));
            }
            Get(variable) => match items.get(next) {
                Some(item) => {
                    variables[variable] = *item;
                    next += 1;
                }
                None => return out,
            },
            Put => out.push(stack.pop().unwrap_or(0)),
            Jump(target) => {
                at = target;
                continue;
            }
            JumpIfZero(target) => {
                if stack.pop().unwrap_or(0) == 0 {
                    at = target;
                    continue;
                }
            }
            Repeat(times) => passes.push(times),
            Again(target) => {
                let left = passes.pop().unwrap_or(0);
                if left > 1 {
                    passes.push(left - 1);
                    at = target;
                    continue;
                }
            }
        }
        at += 1;
    }
}

fn expressions() -> Vec<Statement> {
    let first = of(
        of(
            of(
                of(of(of(a(), Multiply, number(3)), Add, v()), Multiply, of(v(), Subtract, number(2))),
                Subtract,
                of(of(a(), Subtract, v()), Multiply, of(a(), Add, v())),
            ),
            Add,
            of(number(7), Multiply, of(of(v(), Multiply, v()), Subtract, a())),
        ),
        Subtract,
        of(a(), Add, number(1)),
    );
    let second = of(
        of(
            of(
                of(of(v(), Add, a()), Multiply, of(v(), Subtract, a())),
                Add,
                of(number(5), Multiply, of(a(), Subtract, number(3))),
            ),
            Subtract,
            of(of(of(v(), Multiply, number(2)), Add, a()), Multiply, of(of(a(), Multiply, number(2)), Add, v())),
        ),
        Add,
        of(v(), Subtract, number(9)),
    );
    vec![Statement::Assign(0, first), Statement::PutOut(second)]
}

fn plus(value: i64) -> Vec<Statement> {
    vec![Statement::Assign(0, of(a(), Add, number(value)))]
}

fn below(value: i64, first: Vec<Statement>, second: Vec<Statement>) -> Statement {
    Statement::If(of(v(), Less, number(value)), first, second)
}

fn choices() -> Vec<Statement> {
    let low = below(2, vec![below(1, plus(1), plus(2))], plus(3));
    let high = below(6, plus(4), plus(5));
    vec![below(4, vec![low], vec![high]), Statement::PutOut(a())]
}

fn repetitions() -> Vec<Statement> {
    let inner = Statement::Repeated(5, vec![Statement::Assign(0, of(a(), Add, v()))]);
    vec![Statement::Repeated(4, vec![inner]), Statement::PutOut(a())]
}

fn forty() -> Vec<Statement> {
    let mut body: Vec<Statement> = (0..38).map(|_| Statement::Assign(0, of(a(), Add, v()))).collect();
    body.push(Statement::If(of(v(), Equal, number(0)), vec![Statement::PutOut(a())], Vec::new()));
    body
}

fn main() {
    let count: usize = std::env::args().nth(1).and_then(|it| it.parse().ok()).unwrap_or(250_000);
    let items = vec![1i64; count];
    let sum = vec![Statement::Assign(0, of(a(), Add, v())), Statement::PutOut(a())];
    let bodies = [("sum", sum), ("expressions", expressions()), ("choices", choices()), ("repetitions", repetitions()), ("forty", forty())];
    for (name, body) in bodies {
        let code = looped(&body);
        let mut least = u128::MAX;
        let mut put = 0;
        for _ in 0..5 {
            let start = Instant::now();
            let out = run(&code, &items);
            least = least.min(start.elapsed().as_micros());
            put = out.len();
        }
        println!("form {name} {count} {least} {put}");
    }
}
