# parts: the parts of a message, with the length and the SHA-256 of each content

## newsletter
    $ depot parts examples/newsletter.eml
    0 1 multipart/mixed 66165 a3768e52493f0939a518c3fc64cdd4c295d82d429f4db0ab7468dab49150b00a
    1 2 text/plain 212 610afae5f76fbe3f9c7b70c7692087a22ecac4fa8925a3d0e7fa2f4a5ff3f74d
    2 2 image/jpeg 48000 bfd42943982d868975538aa75d46a6eefdb36038b2cb9fda604b7904a81629ac

## invoice
    $ depot parts examples/invoice.eml
    0 1 multipart/mixed 18704 45aa25c8fba1e97b9e2a6764ddcd756876ae47123188f18355b69320ad484288
    1 2 multipart/alternative 6067 4f235a986104b0661484dab92c1309b8f5dcc42946e8bea7554897e0de3455e6
    2 3 text/plain 1724 9a1e8ffa9b457ae8566296ca761d14f2425e4507001adb62c217491bb1d571b5
    3 3 text/html 3100 52c51bf938e19e7c648468e60b3e75d15fd094a89cd2f0b8f43e2b261ecef85f
    4 2 application/pdf 9016 80f8df41adb207ae3eceb0df7cfcf10bdd1d48d1b19423f1f5a03d9b6f7db81e

## forwarded
    $ depot parts examples/forwarded.eml
    0 1 multipart/mixed 2229 df4e0378d181a22e5b0ad7caa6688ff3454e248e14f2a8e5f346aa69758730f8
    1 2 text/plain 55 34fb046fe43cbb95a7ccf086c677f2f2a64d88d35f2e8a0f5bcf0194e51ce6ee
    2 2 message/rfc822 2022 1e572765e2492a5f86bee7280ca90d36a8ccb20a549ded6d1317dac96a6993a9
    3 3 text/plain 1681 98da9793eb4c2c14aeb4c4f4d42452aa1c16283a9e4dbea59b09833bac33a6b9

## standard input
    $ printf '\nabc' | depot parts /dev/stdin
    0 1 text/plain 3 ba7816bf8f01cfea414140de5dae2223b00361a396177a9cb410ff61f20015ad
