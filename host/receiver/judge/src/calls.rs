//! Every call with steps, over one receiver's records, and how a receiver is brought up.
use pasetone::Call as C;
use pasetone::{Answer, Command, InputPath, Receiver, Script, Stream, demod, gpio};

/// What a call does to the IF, beside what its steps say: whether tuner and demodulator have the same behind it where it is done.
#[derive(Clone, Copy, PartialEq)]
pub enum If {
    /// It moves neither.
    Stays,
    /// It sets both.
    Set,
    /// It moves one of them, or the demodulator forgets its own.
    Lost,
}

pub type Make = fn(&mut Receiver, &Script) -> Answer<u64>;

pub struct Call {
    pub name: &'static str,
    pub make: Make,
    pub moves: If,
    /// The Hz of a tuning by the board's table: its answer is held to the chip's own centre.
    pub station: Option<u64>,
}

fn plain<T>(answer: Answer<T>) -> Answer<u64> {
    Answer { result: answer.result.map(|_| 0), transcript: answer.transcript }
}

const fn call(name: &'static str, moves: If, make: Make) -> Call {
    Call { name, make, moves, station: None }
}

const fn station(name: &'static str, hz: u64, make: Make) -> Call {
    Call { name, make, moves: If::Stays, station: Some(hz) }
}

fn by_stream(receiver: &mut Receiver, script: &Script) -> Answer<u64> {
    let fed = receiver.feed(&mut Stream::new(), &Command::Frequency(102_300_000).bytes(), |_| script.clone()).remove(0);
    Answer { result: fed.result, transcript: fed.transcript }
}

/// In the order of pasetone.h, and then tunings of other bands.
pub const CALLS: [Call; 29] = [
    call("initialize", If::Stays, |r, s| plain(r.tuner_mut().initialize(s))),
    call("set_frequency", If::Stays, |r, s| r.tuner_mut().set_frequency(102_300_000, s).into()),
    call("set_frequency, refused in the PLL", If::Stays, |r, s| r.tuner_mut().set_frequency(1, s).into()),
    call("set_gain", If::Stays, |r, s| plain(r.tuner_mut().set_gain(29.7, s))),
    call("set_gain_by_index", If::Stays, |r, s| plain(r.tuner_mut().set_gain_by_index(28, s))),
    call("set_bandwidth", If::Stays, |r, s| plain(r.tuner_mut().set_bandwidth(2_048_000, s))),
    call("set_if_freq", If::Lost, |r, s| plain(r.tuner_mut().set_if_freq(3_570_000, s))),
    call("set_input_path", If::Stays, |r, s| plain(r.tuner_mut().set_input_path(InputPath::Hf, s))),
    call("reload", If::Stays, |r, s| plain(r.tuner_mut().reload(s))),
    call("set_sample_rate", If::Set, |r, s| plain(r.set_sample_rate(2_048_000, s))),
    station("tune_board, HF", 7_000_000, |r, s| r.tune(7_000_000, s).into()),
    call("apply_input_path", If::Stays, |r, s| plain(r.tuner_mut().apply_input_path(InputPath::Uhf, s))),
    call("init_baseband", If::Lost, |_, s| plain(demod::init_baseband(s))),
    call("power_on", If::Lost, |_, s| plain(demod::power_on(s))),
    call("reset_demod", If::Lost, |_, s| plain(demod::reset_demod(s))),
    call("set_tuner_low_if", If::Stays, |_, s| plain(demod::set_tuner_low_if(s))),
    call("set_tuner_zero_if", If::Stays, |_, s| plain(demod::set_tuner_zero_if(s))),
    call("start_streaming", If::Stays, |_, s| plain(demod::start_streaming(s))),
    call("stop_streaming", If::Lost, |_, s| plain(demod::stop_streaming(s))),
    call("write_reg_direct", If::Stays, |_, s| plain(demod::write_reg_direct(1, 0x15, 1, s))),
    call("set_if_freq_xtal", If::Lost, |_, s| plain(demod::set_if_freq_xtal(2_300_000, 28_800_000, s))),
    call("set_sample_rate_xtal", If::Stays, |_, s| plain(demod::set_sample_rate_xtal(2_048_000, 28_800_000, s))),
    call("set_gpio_output", If::Stays, |_, s| plain(gpio::set_output(5, s))),
    call("set_gpio_bit", If::Stays, |_, s| plain(gpio::set_bit(5, true, s))),
    call("feed, operation 1", If::Stays, by_stream),
    station("tune_board, FM", 102_300_000, |r, s| r.tune(102_300_000, s).into()),
    station("tune_board, FM again", 107_500_000, |r, s| r.tune(107_500_000, s).into()),
    station("tune_board, UHF", 433_920_000, |r, s| r.tune(433_920_000, s).into()),
    call("set_sample_rate, another", If::Set, |r, s| plain(r.set_sample_rate(2_400_000, s))),
];

/// The same as values, as a state keeps them; a command of a stream is the call that it stands for.
pub const VALUES: [C; 29] = [
    C::Initialize,
    C::SetFrequency(102_300_000),
    C::SetFrequency(1),
    C::SetGain(29.7),
    C::SetGainByIndex(28),
    C::SetBandwidth(2_048_000),
    C::SetIfFreq(3_570_000),
    C::SetInputPath(InputPath::Hf),
    C::Reload,
    C::SetSampleRate(2_048_000),
    C::TuneBoard(7_000_000),
    C::ApplyInputPath(InputPath::Uhf),
    C::InitBaseband,
    C::PowerOn,
    C::ResetDemod,
    C::SetTunerLowIf,
    C::SetTunerZeroIf,
    C::StartStreaming,
    C::StopStreaming,
    C::WriteRegDirect { page: 1, address: 0x15, value: 1 },
    C::SetIfFreqXtal { hz: 2_300_000, xtal: 28_800_000 },
    C::SetSampleRateXtal { rate: 2_048_000, xtal: 28_800_000 },
    C::SetGpioOutput(5),
    C::SetGpioBit(5, true),
    C::SetFrequency(102_300_000),
    C::TuneBoard(102_300_000),
    C::TuneBoard(107_500_000),
    C::TuneBoard(433_920_000),
    C::SetSampleRate(2_400_000),
];

/// Whether a call and its value have the same steps over these records, where all are done.
pub fn is_value(number: usize, receiver: &Receiver) -> bool {
    let script = Script::all_done();
    let (call, value) = ((CALLS[number].make)(&mut receiver.clone(), &script), VALUES[number].make(&mut receiver.clone(), &script));
    call.transcript == value.transcript
}

/// From power on to a first station, in the order of host/README.md, by calls that are all to be done.
pub const BRING_UP: [Make; 14] = [
    |_, s| plain(demod::power_on(s)),
    |_, s| plain(gpio::set_output(4, s)),
    |_, s| plain(gpio::set_output(5, s)),
    |_, s| plain(gpio::set_bit(4, true, s)),
    |_, s| plain(gpio::set_bit(5, true, s)),
    |r, s| plain(r.tuner_mut().initialize(s)),
    |_, s| plain(demod::set_tuner_low_if(s)),
    |_, s| plain(demod::write_reg_direct(1, 0x15, 1, s)),
    |r, s| plain(r.tuner_mut().set_if_freq(2_300_000, s)),
    |_, s| plain(demod::reset_demod(s)),
    |r, s| plain(r.set_sample_rate(2_048_000, s)),
    |_, s| plain(demod::write_reg_direct(1, 0x15, 1, s)),
    |_, s| plain(demod::start_streaming(s)),
    |r, s| r.tune(100_000_000, s).into(),
];
