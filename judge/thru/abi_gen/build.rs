include!("../sources.rs");

fn main() {
    println!("cargo:rerun-if-changed=../sources.rs");
    let expr = module_line("expr", "rpc/abi/abi_types/src/expr.rs");
    let resolved = module_line("resolved", "rpc/abi/abi_gen/src/abi/resolved.rs");
    let ir = module_line("ir", "rpc/abi/abi_gen/src/codegen/shared/ir.rs");
    let builder = module_line("builder", "rpc/abi/abi_gen/src/codegen/shared/builder.rs");
    write_lines("abi.rs", &[expr, resolved]);
    write_lines("shared.rs", &[ir, builder]);
}
