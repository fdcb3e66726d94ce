{
    "targets": [{
        "target_name": "graphql_checked",
        "sources": ["binding.c"],
        "include_dirs": ["<!(pkg-config --variable=includedir graphql_checked)"],
        "libraries": ["<!@(pkg-config --libs graphql_checked)"]
    }, {
        "target_name": "beside_index",
        "type": "none",
        "dependencies": ["graphql_checked"],
        "copies": [{ "files": ["<(PRODUCT_DIR)/graphql_checked.node"], "destination": "<(module_root_dir)" }]
    }]
}
