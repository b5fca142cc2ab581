//! Types of the annotations in the text formats of WebAssembly modules and components.

annotation!(custom);
annotation!(name);
annotation!(producers);
annotation!(dylink_0 = "dylink.0");
annotation!(metadata_code_branch_hint = "metadata.code.branch_hint");
