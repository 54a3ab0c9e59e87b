//! A test of libsbc_abi.a from Rust, through crates/sbc_abi/include/sbc.rs: test DATA, the folder of the recorded streams. Writes `ok`, or panics.
#[path = "../../crates/sbc_abi/include/sbc.rs"]
mod sbc;

use sbc::{Decoder, Encoder, Parameters, Progress, Refusal, SeekRequest};

const MARK: i16 = 0x5A5A;

fn samples(bytes: &[u8]) -> Vec<i16> {
    bytes.chunks_exact(2).map(|pair| i16::from_le_bytes([pair[0], pair[1]])).collect()
}

/// Each stream of another encoder, decoded in one call, and from a seek on.
fn decodes(stream: &[u8], expected: &[i16]) {
    let parameters = Parameters::parse(stream).unwrap();
    let channels = if parameters.channel_mode == 0 { 1 } else { 2 };
    let mut decoder = Decoder::new();
    let mut output = vec![MARK; expected.len() + 300];
    let all = Progress { consumed: stream.len(), produced: expected.len() };
    assert_eq!(decoder.decode(stream, &mut output), Ok(all));
    assert_eq!(output[..expected.len()], *expected);
    assert!(output[expected.len()..].iter().all(|&sample| sample == MARK));
    assert_eq!((decoder.has_parameters, decoder.parameters), (1, parameters));

    let request = decoder.seek(700).unwrap();
    let behind = decoder.decode(&stream[request.byte_offset as usize..], &mut output).unwrap();
    assert_eq!(output[..behind.produced], expected[700 * channels..]);
    decoder.reset();
    assert_eq!(decoder, Decoder::new());
}

/// Each refusal, which changes neither the decoder nor the output.
fn refuses(stream: &[u8]) {
    let length = Parameters::parse(stream).unwrap().frame_length();
    let mut decoder = Decoder::new();
    assert_eq!(decoder.seek(1), Err(Refusal(1)));
    assert_eq!(decoder.seek(0), Ok(SeekRequest { byte_offset: 0, skip_frames: 0 }));
    decoder.decode(&stream[..length], &mut [0; 256]).unwrap();
    decoder.finish();
    let mut bad = stream[..length].to_vec();
    bad[3] ^= 1;
    let mut no_frame = bad.clone();
    no_frame[0] = 0;
    for (input, room, number) in [(&bad[..length - 1], 256, 1), (&no_frame, 256, 2), (&bad, 256, 4), (&bad, 255, 5)] {
        let before = decoder;
        let mut output = [MARK; 256];
        assert_eq!(decoder.decode(input, &mut output[..room]), Err(Refusal(number)));
        assert!(decoder == before && output == [MARK; 256]);
    }
    assert_eq!(decoder.decode(&[], &mut []), Ok(Progress { consumed: 0, produced: 0 }));
}

/// What is encoded is decoded, in one call and in two; refusals of the encoder.
fn encodes(pcm: &[i16]) {
    let parameters = Parameters { bitpool: 31, ..Parameters::HIGH_QUALITY };
    assert!(Encoder::new(Parameters { bitpool: 1, ..parameters }).is_err_and(|refusal| refusal == Refusal(3)));
    let (length, count) = (parameters.frame_length(), parameters.frame_samples());
    let mut encoder = Encoder::new(parameters).unwrap();
    let created = encoder;
    assert_eq!(encoder.encode(pcm, &mut vec![0; length - 1]), Err(Refusal(5)));
    assert_eq!(encoder, created);
    let frames = pcm.len() / count;
    let mut whole = vec![0; frames * length];
    assert_eq!(encoder.encode(pcm, &mut whole), Ok(Progress { consumed: frames * count, produced: frames * length }));
    encoder.reset();
    assert_eq!(encoder, created);
    let mut parts = vec![0; frames * length];
    let first = encoder.encode(&pcm[..2 * count], &mut parts).unwrap();
    encoder.encode(&pcm[first.consumed..], &mut parts[first.produced..]).unwrap();
    assert_eq!(whole, parts);
    let mut output = vec![0; frames * count];
    assert_eq!(Decoder::new().decode(&whole, &mut output), Ok(Progress { consumed: whole.len(), produced: output.len() }));
}

fn main() {
    let folder = std::env::args().nth(1).expect("test DATA");
    let read = |name: &str| std::fs::read(format!("{folder}/{name}")).unwrap();
    assert_eq!((Parameters::MSBC.frame_length(), Parameters::MSBC.frame_samples()), (57, 120));
    assert_eq!(Parameters::parse(&[0xAD]), Err(Refusal(1)));
    for name in ["dual", "ffmpeg_msbc", "ffmpeg_stereo", "joint", "mono", "msbc", "stereo4"] {
        decodes(&read(&format!("{name}.sbc")), &samples(&read(&format!("{name}.rust.pcm"))));
    }
    refuses(&read("joint.sbc"));
    encodes(&samples(&read("joint.rust.pcm")));
    println!("ok");
}
