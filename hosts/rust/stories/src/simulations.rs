//! Document 02, P12: setups of several loggers on one bus, each with what happens there, stated by hand: every telegram with its
//! fate, and the words that `amsulfezd simulate` prints.

use amsulfezd::simulation::SetupText;

/// A setup, with its story.
pub struct SimulationStory {
    /// The files' name below `traces/`, without ending.
    pub name: &'static str,
    tale: &'static str,
    /// The text of the setup.
    setup: &'static str,
    /// Each telegram: the clock at which it is sent, the sender's address, what it is, and `lost` or the clock at which the others
    /// have it in their records.
    bus: &'static str,
    /// Who got the token when, which telegrams were lost, and the table of the stations.
    said: &'static str,
}

impl SimulationStory {
    /// The files' endings and contents. Before the telegrams stand the setup's bytes.
    pub fn files(&self) -> [(&'static str, Vec<u8>); 4] {
        let setup = SetupText::read(self.setup).expect("a setup").setup;
        let bytes = setup.to_bytes();
        let digits: String = bytes.iter().map(|byte| format!("{:02x}", byte)).collect();
        [
            ("setup", self.setup.as_bytes().to_vec()),
            ("bus", format!("{}\n{}", digits, self.bus).into_bytes()),
            ("said", self.said.as_bytes().to_vec()),
            ("txt", format!("{}\n", self.tale).into_bytes()),
        ]
    }
}

/// All of them.
pub fn stories() -> Vec<SimulationStory> {
    vec![two_loggers(), three_with_a_bad_slot(), eight_at_12_mbaud()]
}

/// At 500 kbaud a bit takes 2 us: a token of 33 bits 66 us, a status request or response 132, the pause 66, a slot of 200 bits 400.
fn two_loggers() -> SimulationStory {
    SimulationStory {
        name: "simulations/two-loggers",
        tale: "Two loggers, 2 and 3, at 500 kbaud, with ticks of 50 us. Nobody speaks. 2 takes the token for lost after 400 us x \
               (6 + 2 x 2) = 4,000 us, before 3, which would after 4,800, and claims it: a token to itself, which ends at 4,066, and \
               after the pause of 66 us, at the tick 4,150, a second one. From then on 2 is alone: it asks its application, which \
               declines, and a tick later passes the token to itself. The gap wait is 1, so that two passes count (4,350, 4,550) and \
               the third asks the next address, 3 (4,750). 3 has heard 2's tokens, knows the ring and answers at 5,000, the first \
               tick after the pause, that it is ready and without token; 2 hears it at 5,150, within its slot time, which ends at \
               4,882 + 400. The next token goes to 3 (5,250), which has it at 5,350 and passes it back at 5,500. The ring is made.",
        setup: "# Two loggers form a ring.\ntick 50\nticks 120\nstation 2 gap 1\nstation 3 gap 1\n",
        bus: "4000 2 token 2 4100\n\
              4150 2 token 2 4250\n\
              4350 2 token 2 4450\n\
              4550 2 token 2 4650\n\
              4750 2 status-request 3 4900\n\
              5000 3 status-response 2 5150\n\
              5250 2 token 3 5350\n\
              5500 3 token 2 5600\n\
              5750 2 token 3 5850\n",
        said: "2 stations at 500,000 bits a second, 120 ticks of 50 us\n\
               \n\
               \x20      clock  station\n\
               \x20      4,000        2  claims the token\n\
               \x20      4,150        2  has the token that it claimed\n\
               \x20      5,350        3  gets the token from 2\n\
               \x20      5,600        2  gets the token from 3\n\
               \x20      5,850        3  gets the token from 2\n\
               \n\
               station  claims  tokens  from others   sent   lost\n\
               \x20     2       1       4            1      7      0\n\
               \x20     3       0       2            2      2      0\n",
    }
}

/// The same speed. Station 0 has a slot time of 8 ms, the others 400 us.
fn three_with_a_bad_slot() -> SimulationStory {
    SimulationStory {
        name: "simulations/bad-slot-time",
        tale: "Three loggers, 0, 2 and 3, at 500 kbaud, with ticks of 50 us; HSA 4. The slot time of 0 was set to 4,000 bits, which is \
               8,000 us; the others have 200 bits, 400 us. As in the story of two loggers 2 claims the token and finds 3. 3 walks its \
               gap: 4 is not below the HSA, so it asks 0 (6,500), which answers, and the ring is 0, 2, 3. When 0 walks its own gap it \
               asks 1 (8,750), which nobody is, and waits 8,000 us for an answer. That is far too long: 2 has heard nothing since \
               8,900, when the question was in its record, and takes the token for lost after 4,000 us. It claims it at 12,900, though \
               0 still holds it. 0 hears 2's token and gives its own up; 3 passes to 0 as before. The bus works on, but each gap poll \
               of 0 costs 4 ms of silence and a claim: one slot time for all stations, says the training.",
        setup: "# Three loggers, one of them with a bad slot time.\ntick 50\nticks 280\nstation 0 hsa 4 gap 1 slot 4000\nstation 2 \
                hsa 4 gap 1\nstation 3 hsa 4 gap 1\n",
        bus: "4000 2 token 2 4100\n\
              4150 2 token 2 4250\n\
              4350 2 token 2 4450\n\
              4550 2 token 2 4650\n\
              4750 2 status-request 3 4900\n\
              5000 3 status-response 2 5150\n\
              5250 2 token 3 5350\n\
              5500 3 token 2 5600\n\
              5750 2 token 3 5850\n\
              6000 3 token 2 6100\n\
              6250 2 token 3 6350\n\
              6500 3 status-request 0 6650\n\
              6750 0 status-response 3 6900\n\
              7000 3 token 0 7100\n\
              7250 0 token 2 7350\n\
              7500 2 token 3 7600\n\
              7750 3 token 0 7850\n\
              8000 0 token 2 8100\n\
              8250 2 token 3 8350\n\
              8500 3 token 0 8600\n\
              8750 0 status-request 1 8900\n\
              12900 2 token 2 13000\n\
              13050 2 token 2 13150\n\
              13250 2 token 3 13350\n\
              13500 3 token 0 13600\n\
              13750 0 token 2 13850\n",
        said: "3 stations at 500,000 bits a second, 280 ticks of 50 us\n\
               \n\
               \x20      clock  station\n\
               \x20      4,000        2  claims the token\n\
               \x20      4,150        2  has the token that it claimed\n\
               \x20      5,350        3  gets the token from 2\n\
               \x20      5,600        2  gets the token from 3\n\
               \x20      5,850        3  gets the token from 2\n\
               \x20      6,100        2  gets the token from 3\n\
               \x20      6,350        3  gets the token from 2\n\
               \x20      7,100        0  gets the token from 3\n\
               \x20      7,350        2  gets the token from 0\n\
               \x20      7,600        3  gets the token from 2\n\
               \x20      7,850        0  gets the token from 3\n\
               \x20      8,100        2  gets the token from 0\n\
               \x20      8,350        3  gets the token from 2\n\
               \x20      8,600        0  gets the token from 3\n\
               \x20     12,900        2  claims the token\n\
               \x20     13,050        2  has the token that it claimed\n\
               \x20     13,350        3  gets the token from 2\n\
               \x20     13,600        0  gets the token from 3\n\
               \x20     13,850        2  gets the token from 0\n\
               \n\
               station  claims  tokens  from others   sent   lost\n\
               \x20     0       0       4            4      5      0\n\
               \x20     2       2       9            5     13      0\n\
               \x20     3       0       6            6      8      0\n",
    }
}

/// At 12 Mbaud a token takes 3 us and the lost-token time of address a is 1,000 x (6 + 2 a) bits: 500 us for 0, then 667, 834,
/// 1,000, 1,167, 1,334, 1,500 and 1,667.
fn eight_at_12_mbaud() -> SimulationStory {
    SimulationStory {
        name: "simulations/eight-at-12-mbaud",
        tale: "Eight loggers, 0 to 7, at 12 Mbaud, with ticks of 500 us: far longer than a token, which takes 3 us, and than the times \
               after which a station takes the token for lost, 500 us for 0 and 167 more for each next one. Every station acts at \
               ticks alone, and those that act at the same tick speak at once. At 500 us 0 claims the token. Its telegram is heard at \
               1,000; but at that tick the time of 1, 2 and 3 is over, and they claim before they look at it: with 0's second token \
               that makes four at once, and all are lost. 4 to 7 have heard 0 at 1,000. 0 passes the token to itself alone at 2,000, \
               which is heard at 2,500; but then 4, 5 and 6 have waited 1,167 to 1,500 us since 1,000, and claim; 7 has not. From then \
               on there are seven tokens, and nearly each telegram meets another. At 4,000 4, 5 and 6 pass to 0, which they have \
               heard, and 0 does not hear it. No ring comes about: a bench needs a tick that is shorter than a telegram.",
        setup: "# Eight loggers at 12 Mbaud, with a tick that makes telegrams collide.\ntick 500\nticks 9\nstation 0 baud 10\nstation 1 \
                baud 10\nstation 2 baud 10\nstation 3 baud 10\nstation 4 baud 10\nstation 5 baud 10\nstation 6 baud 10\nstation 7 \
                baud 10\n",
        bus: "500 0 token 0 1000\n\
              1000 0 token 0 lost\n\
              1000 1 token 1 lost\n\
              1000 2 token 2 lost\n\
              1000 3 token 3 lost\n\
              1500 1 token 1 lost\n\
              1500 2 token 2 lost\n\
              1500 3 token 3 lost\n\
              2000 0 token 0 2500\n\
              2500 1 token 1 lost\n\
              2500 2 token 2 lost\n\
              2500 3 token 3 lost\n\
              2500 4 token 4 lost\n\
              2500 5 token 5 lost\n\
              2500 6 token 6 lost\n\
              3000 0 token 0 lost\n\
              3000 4 token 4 lost\n\
              3000 5 token 5 lost\n\
              3000 6 token 6 lost\n\
              3500 1 token 1 lost\n\
              3500 2 token 2 lost\n\
              3500 3 token 3 lost\n\
              4000 0 token 0 lost\n\
              4000 4 token 0 lost\n\
              4000 5 token 0 lost\n\
              4000 6 token 0 lost\n",
        said: "8 stations at 12,000,000 bits a second, 9 ticks of 500 us\n\
               \n\
               \x20      clock  station\n\
               \x20        500        0  claims the token\n\
               \x20      1,000        0  has the token that it claimed\n\
               \x20      1,000        0  the token to 0 is lost\n\
               \x20      1,000        1  claims the token\n\
               \x20      1,000        1  the token to 1 is lost\n\
               \x20      1,000        2  claims the token\n\
               \x20      1,000        2  the token to 2 is lost\n\
               \x20      1,000        3  claims the token\n\
               \x20      1,000        3  the token to 3 is lost\n\
               \x20      1,500        1  has the token that it claimed\n\
               \x20      1,500        1  the token to 1 is lost\n\
               \x20      1,500        2  has the token that it claimed\n\
               \x20      1,500        2  the token to 2 is lost\n\
               \x20      1,500        3  has the token that it claimed\n\
               \x20      1,500        3  the token to 3 is lost\n\
               \x20      2,500        1  the token to 1 is lost\n\
               \x20      2,500        2  the token to 2 is lost\n\
               \x20      2,500        3  the token to 3 is lost\n\
               \x20      2,500        4  claims the token\n\
               \x20      2,500        4  the token to 4 is lost\n\
               \x20      2,500        5  claims the token\n\
               \x20      2,500        5  the token to 5 is lost\n\
               \x20      2,500        6  claims the token\n\
               \x20      2,500        6  the token to 6 is lost\n\
               \x20      3,000        0  the token to 0 is lost\n\
               \x20      3,000        4  has the token that it claimed\n\
               \x20      3,000        4  the token to 4 is lost\n\
               \x20      3,000        5  has the token that it claimed\n\
               \x20      3,000        5  the token to 5 is lost\n\
               \x20      3,000        6  has the token that it claimed\n\
               \x20      3,000        6  the token to 6 is lost\n\
               \x20      3,500        1  the token to 1 is lost\n\
               \x20      3,500        2  the token to 2 is lost\n\
               \x20      3,500        3  the token to 3 is lost\n\
               \x20      4,000        0  the token to 0 is lost\n\
               \x20      4,000        4  the token to 0 is lost\n\
               \x20      4,000        5  the token to 0 is lost\n\
               \x20      4,000        6  the token to 0 is lost\n\
               \n\
               station  claims  tokens  from others   sent   lost\n\
               \x20     0       1       4            0      5      3\n\
               \x20     1       1       3            0      4      4\n\
               \x20     2       1       3            0      4      4\n\
               \x20     3       1       3            0      4      4\n\
               \x20     4       1       1            0      3      3\n\
               \x20     5       1       1            0      3      3\n\
               \x20     6       1       1            0      3      3\n\
               \x20     7       0       0            0      0      0\n",
    }
}
