include!("../sources.rs");

fn main() {
    println!("cargo:rerun-if-changed=../sources.rs");
    let errors = module_line("errors", "rpc/abi/abi_reflect/src/errors.rs");
    let interpreter = module_line("interpreter", "rpc/abi/abi_reflect/src/ir/interpreter.rs");
    write_lines("errors.rs", &[errors]);
    write_lines("ir.rs", &[interpreter]);
}
