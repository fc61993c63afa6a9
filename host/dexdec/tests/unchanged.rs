//! The files of docs/src are the ones that were published: their SHA-256 is compared with a fixed table.

mod sha256;

use sha256::hex_digest;

const FILES: [(&str, &[u8], &str); 6] = [
    (
        "ty.rs",
        include_bytes!("../../../docs/src/dexdec/src/ir/ty.rs"),
        "41389510996d1304d932a31a48346ce4ec8da5dbaf3aadf91f32d47adb5b3ed1",
    ),
    (
        "types.rs",
        include_bytes!("../../../docs/src/dexdec/src/ir/analysis/types.rs"),
        "8f0f177f1eda13a9fcf0c6c347d2bde0cda809e64dfdc29c7182fab79ce2b4fa",
    ),
    (
        "constraints.rs",
        include_bytes!("../../../docs/src/dexdec/src/ir/analysis/types/constraints.rs"),
        "fc3f76b82274dd13705e22b1a4d506de05b2f72fb7e4a47f389cec0ca4a4fde4",
    ),
    (
        "hierarchy.rs",
        include_bytes!("../../../docs/src/dexdec/src/ir/analysis/types/hierarchy.rs"),
        "0f6672146ead1d81c891085746770429f1c714b4e862e2c4404262851450cfe6",
    ),
    (
        "lattice.rs",
        include_bytes!("../../../docs/src/dexdec/src/ir/analysis/types/lattice.rs"),
        "030645a306a9779c372cb32378dabc845365ee12cf1296751ab8c97b8b16c819",
    ),
    (
        "LICENSE.txt",
        include_bytes!("../../../docs/src/LICENSE.txt"),
        "c71d239df91726fc519c6eb72d318ec65820627232b2f796219e87dcf35d0ab4",
    ),
];

#[test]
fn no_file_of_docs_src_has_changed() {
    for (name, bytes, digest) in FILES {
        assert_eq!(hex_digest(bytes), digest, "{name}");
    }
}

#[test]
fn sha256_gives_the_published_digests() {
    let long = "a".repeat(1_000_000);
    let vectors = [
        (
            "",
            "e3b0c44298fc1c149afbf4c8996fb92427ae41e4649b934ca495991b7852b855",
        ),
        (
            "abc",
            "ba7816bf8f01cfea414140de5dae2223b00361a396177a9cb410ff61f20015ad",
        ),
        (
            "abcdbcdecdefdefgefghfghighijhijkijkljklmklmnlmnomnopnopq",
            "248d6a61d20638b8e5c026930c3e6039a33ce45964ff2167f6ecedd419db06c1",
        ),
        (
            long.as_str(),
            "cdc76e5c9914fb9281a1c7e284d73e67f1809a48a497200e046d39ccc7112cd0",
        ),
    ];
    for (text, digest) in vectors {
        assert_eq!(hex_digest(text.as_bytes()), digest);
    }
}

#[test]
fn sha256_sees_one_changed_bit() {
    let (_, bytes, digest) = FILES[0];
    let mut changed = bytes.to_vec();
    changed[100] ^= 1;
    assert_ne!(hex_digest(&changed), digest);
}
