//! steps FOLDER DGN [--all]: the tests of the command's steps: cut at every call, power lost, calls that fail, damaged logs, changes
//! by other programs, random commands. FOLDER is empty and is used for all files, DGN is the program. With --all also what
//! takes longer. The last line is "N passed, M failed".

mod book;
mod command;
mod cuts;
mod damage;
mod failing;
mod folder;
mod inputs;
mod jobs;
mod meanwhile;
mod model;
mod random;
mod surroundings;
mod tests;

fn main() {
    jobs::main();
}
