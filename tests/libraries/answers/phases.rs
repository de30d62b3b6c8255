//! The phases of a log that is given, as a table and as JSON.

use node_machine::Phase;
use run_times::{Ending, runs_in, table_text, times_json};
use std::alloc::AllocError;

const LOG: &[u8] = b"2026-11-25T23:40:00.000Z\tlife\t-\t-\t-\t9\tstart=begin
2026-11-25T23:40:00.100Z\tstart\tA\tJOB\t0\t10\tcommand=/bin/true
2026-11-25T23:40:01.350Z\tend\tA\tJOB\t0\t10\texit=3\tseconds=1.250
2026-11-25T23:40:01.400Z\tnotstarted\tB\tPRE\t0\t-\twhat=program
2026-11-25T23:40:02.000Z\tstart\tB\tJOB\t1\t11\tcommand=/bin/true
2026-11-25T23:40:02.5";

const ENDINGS: &[u8] = b"2026-11-25T23:40:00.000Z\tlife\t-\t-\t-\t9\tstart=begin
2026-11-25T23:40:00.100Z\tstart\tA\tPRE\t0\t10\tcommand=/bin/true
2026-11-25T23:40:00.350Z\tend\tA\tPRE\t0\t10\texit=0\tseconds=0.250
2026-11-25T23:40:00.400Z\tstart\tA\tJOB\t0\t11\tcommand=/bin/true
2026-11-25T23:40:01.650Z\tend\tA\tJOB\t0\t11\texit=3\tseconds=1.250
2026-11-25T23:40:01.700Z\tstart\tsay\"hi\"\tJOB\t1\t12\tcommand=/bin/true
2026-11-25T23:40:02.000Z\tend\tsay\"hi\"\tJOB\t1\t12\tsignal=9\tseconds=0.300
2026-11-25T23:40:02.000Z\tstart\tB\tPOST\t2\t13\tcommand=/bin/true
2026-11-25T23:40:03.000Z\tkilled\tB\tPOST\t2\t13\tby=abort
2026-11-25T23:40:03.500Z\tstart\tC\tJOB\t0\t14\tcommand=/bin/true
2026-11-25T23:40:04.250Z\tnotstarted\tD\tJOB\t0\t-\twhat=program
";

#[test]
fn times_of_a_log(rt: HostRuntime) -> Result<(), AllocError> {
    let alloc = rt.alloc();
    let runs = runs_in(alloc, LOG)?;
    assert!(rt; runs.len() == 3);
    assert!(rt; runs[0].phase == Phase::Job && runs[0].ending == Ending::Exit(3));
    let text = table_text(alloc, &runs, &[true, false, false])?;
    let wanted = "node\tphase\tattempt\tbegin\tseconds\tended\tpath
A\tJOB\t0\t0.100\t1.250\texit 3\t*
B\tPRE\t0\t1.400\t0.000\tnot started\t-
B\tJOB\t1\t2.000\t0.000\truns\t-
";
    assert!(rt; text.as_str() == wanted);
    Ok(())
}

#[test]
fn json_of_a_log(rt: HostRuntime) -> Result<(), AllocError> {
    let alloc = rt.alloc();
    let runs = runs_in(alloc, ENDINGS)?;
    assert!(rt; runs.len() == 6);
    let text = times_json(alloc, &runs, &[true, true, false, false, true, false])?;
    let wanted = "{\"phases\":[\
{\"attempt\":0,\"begin_ms\":100,\"critical\":true,\"ended\":\"exit\",\"exit_code\":0,\"ms\":250,\"node\":\"A\",\"phase\":\"PRE\",\"signal\":null},\
{\"attempt\":0,\"begin_ms\":400,\"critical\":true,\"ended\":\"exit\",\"exit_code\":3,\"ms\":1250,\"node\":\"A\",\"phase\":\"JOB\",\"signal\":null},\
{\"attempt\":1,\"begin_ms\":1700,\"critical\":false,\"ended\":\"signal\",\"exit_code\":null,\"ms\":300,\"node\":\"say\\\"hi\\\"\",\"phase\":\"JOB\",\"signal\":9},\
{\"attempt\":2,\"begin_ms\":2000,\"critical\":false,\"ended\":\"killed\",\"exit_code\":null,\"ms\":1000,\"node\":\"B\",\"phase\":\"POST\",\"signal\":null},\
{\"attempt\":0,\"begin_ms\":3500,\"critical\":true,\"ended\":\"runs\",\"exit_code\":null,\"ms\":750,\"node\":\"C\",\"phase\":\"JOB\",\"signal\":null},\
{\"attempt\":0,\"begin_ms\":4250,\"critical\":false,\"ended\":\"not started\",\"exit_code\":null,\"ms\":0,\"node\":\"D\",\"phase\":\"JOB\",\"signal\":null}\
]}\n";
    assert!(rt; text.as_str() == wanted);
    Ok(())
}

#[test]
fn json_of_an_empty_log(rt: HostRuntime) -> Result<(), AllocError> {
    let alloc = rt.alloc();
    let runs = runs_in(alloc, b"")?;
    assert!(rt; runs.is_empty());
    let text = times_json(alloc, &runs, &[])?;
    assert!(rt; text.as_str() == "{\"phases\":[]}\n");
    Ok(())
}
