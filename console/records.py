"""The made-up records that check.py shows: a small operator, a large one, and one whose texts are hostile."""

from mock_server import NOW, START, Records

NASTY = "\"'<img src=x onerror=\"window.ran=1\"><script>window.ran=1</script>&amp;\\"
NASTY_WORD = "\"><img/src=x/onerror='window.ran=1'>&lt;"
# Right-to-left override and isolate, a mark, and letters of a script that is written from the right.
TURNED = "a\u202eb\u2067c\u200fd"
HEBREW = "\u05d0\u05d1\u05d2"
DAY = 86400

# Host, tag, moment in seconds and Wh of each use: the last moment of January, the first of February, the ends of 64
# bits, and tags and hosts that a spreadsheet may take for formulas.
USES = [
    ("BETA", "k1", START // 1000 + 3600, 1500),
    ("GAMMA", "k1", START // 1000 + 31 * DAY - 1, 2050),
    ("BETA", "k2", START // 1000 + 31 * DAY - 1, -1),
    ("BETA", "k2", START // 1000 + 31 * DAY, 7),
    ("-", "=1+1", START // 1000 + 31 * DAY, 2**63 - 1),
    ("-", '+"a",b', START // 1000 + 31 * DAY, 2**63 - 1),
    ("-7", "-7", START // 1000 + 31 * DAY, -(2**63)),
    ("-7", "@a", START // 1000 + 31 * DAY, 0),
    ("_", "\ta", START // 1000 + 31 * DAY, 100),
    ("_", "a'=1\nb", 253402300799, 0),
]
TOTALS = [
    ["9999-12", "_", "1", "0"],
    ["2024-02", "-", "2", "18,446,744,073,709,551.614"],
    ["2024-02", "-7", "2", "-9,223,372,036,854,775.808"],
    ["2024-02", "BETA", "1", "0.007"],
    ["2024-02", "_", "1", "0.1"],
    ["2024-01", "BETA", "2", "1.499"],
    ["2024-01", "GAMMA", "1", "2.05"],
]
FEBRUARY = "2024-02-01 00:00:00"
USES_CSV = [
    "use,host,tag,recorded at (UTC),energy (Wh)",
    """10,_,"a'=1\nb",9999-12-31 23:59:59,0""",
    f"9,_,'\ta,{FEBRUARY},100",
    f"8,'-7,'@a,{FEBRUARY},0",
    f"7,'-7,'-7,{FEBRUARY},-9223372036854775808",
    f"""6,'-,"'+""a"",b",{FEBRUARY},9223372036854775807""",
    f"5,'-,'=1+1,{FEBRUARY},9223372036854775807",
    f"4,BETA,k2,{FEBRUARY},7",
    "3,BETA,k2,2024-01-31 23:59:59,-1",
    "2,GAMMA,k1,2024-01-31 23:59:59,2050",
    "1,BETA,k1,2024-01-01 01:00:00,1500",
]
BOOT = {"chargePointModel": "Model 7", "chargePointVendor": "Vendor", "firmwareVersion": "1.4.2"}
# When the running session of NORTH-01 began.
BEGUN = NOW - 65 * 60000


def small_records():
    records = Records()
    records.station("NORTH-01", boot=BOOT, calls=2)
    records.station("NORTH-02", state="Pending", policy="Pending", boot=BOOT, calls=0)
    records.station("NORTH-10", boot=BOOT)
    records.station("ok", state="Fresh")
    records.connector("NORTH-01", 0)
    records.connector("NORTH-01", 1, "Charging")
    records.connector("NORTH-01", 2, "Faulted", "GroundFailure", "checked at 08:00", "Vendor", "E-17")
    records.connector("NORTH-01", 3)
    records.connector("NORTH-02", 1, "Available")
    records.connector("NORTH-10", 0, "Unavailable")
    records.report("NORTH-01", "Diagnostics", "Uploading", START // 1000 + 59)
    records.report("NORTH-01", "Firmware", "Installed")
    records.report("NORTH-02", "Firmware", "InstallationFailed")
    records.reservation("NORTH-01", 4, 3, "K2", "P1", NOW // 1000 + 3600)
    records.local_list("NORTH-01", 6, [
        {"idTag": "K1", "idTagInfo": {"status": "Accepted", "expiryDate": "2030-01-01T00:00:00Z"}},
        {"idTag": "K2", "idTagInfo": {"status": "Blocked", "parentIdTag": "P1"}}])
    add_sessions(records)
    records.tag("K1")
    records.tag("K2", "P1", 0, START // 1000 + 10 * 365 * DAY)
    records.tag("K3", None, 1)
    records.tag("P1")
    records.grant("K2", "BETA", START // 1000 + 10 * 365 * DAY)
    records.rows["granted"].append('granted BETA "B7" - 0 -')
    for host, tag, moment, wh in USES:
        records.use(host, tag, moment, wh)
    return records


def add_sessions(records):
    """Two that have ended, and one that runs, with readings; an energy at the end is without a unit."""
    records.transaction("NORTH-01", 1, "K1", START - 7200000, (131500, START - 3600000, "Local", "K1"))
    records.transaction("NORTH-01", 2, "K2", BEGUN)
    records.transaction("NORTH-02", 1, "k9", START - 86400000, (120000, START - 86390000, "DeAuthorized", None), "Invalid")
    for minute in range(0, 60):
        at = BEGUN + minute * 60000
        energy = 120000 + minute * 184
        unit, micro, text = ("kWh", energy * 10**6, str(energy / 1000)) if minute < 58 else ("-", energy * 10**6, str(energy))
        records.reading("NORTH-01", 2, at, "Energy.Active.Import.Register", "-", unit, micro, text)
        for phase, share in (("L1", 3600), ("L2", 3500), ("L3", 3900)):
            power = share + (minute * 37 % 190)
            records.reading("NORTH-01", 2, at, "Power.Active.Import", phase, "kW", power * 1000000, str(power / 1000))
        if minute % 10 == 0:
            records.reading("NORTH-01", 2, at, "SoC", "-", "Percent", (20 + minute) * 1000000, str(20 + minute))
    records.reading("NORTH-01", 2, BEGUN + 3600000, "Voltage", "L1-N", "V", "-", "about 230")


def many_records(count=1000):
    records = Records()
    for index in range(count):
        name = f"SITE{index // 20:02d}-{index % 20:02d}"
        boot = {"chargePointModel": f"M{index % 7}", "chargePointVendor": "Vendor"}
        records.station(name, boot=boot, calls=None if index % 9 == 0 else 0)
        records.report(name, "Firmware", ("Installed", "Installing", "Idle")[index % 3])
        for connector in (1, 2):
            records.connector(name, connector, ("Available", "Charging", "Faulted")[(index + connector) % 3])
        for number in range(1, 6):
            stop = (125000, START + number, "Local", "K1") if number < 5 else None
            records.transaction(name, number, f"K{index}", START + index * 1000 + number, stop)
    return records


def nasty_records():
    records = Records()
    members = ("chargePointModel", "chargePointVendor", "firmwareVersion", NASTY)
    records.station(NASTY_WORD, boot={name: NASTY for name in members}, calls="x")
    records.connector(NASTY_WORD, 1, "Available", "OtherError", NASTY, NASTY, NASTY)
    records.rows[f"connectors {NASTY_WORD}"].append(f"connector {NASTY_WORD} x X Y 99999999999999999999 - - -")
    records.rows["readers"] += [f"reader {NASTY_WORD} {NASTY_WORD}", "reader __proto__ constructor", "reader x"]
    records.report(NASTY_WORD, NASTY_WORD, NASTY_WORD)
    records.report(NASTY_WORD, "constructor", "__proto__", "x")
    records.reservation(NASTY_WORD, "x", "y", NASTY, NASTY, "z")
    records.local_list(NASTY_WORD, "x", [{"idTag": NASTY}, {NASTY: NASTY}, {"idTag": [1], "idTagInfo": {"status": 5, "expiryDate": NASTY}}])
    records.tag(NASTY, NASTY, "x", "y")
    records.grant(NASTY, "constructor", "z")
    records.rows["granted"] += [f"granted {NASTY_WORD} x y", 'granted __proto__ "x" - 2 -5']
    records.use(NASTY_WORD, NASTY, START // 1000, 1)
    records.use("constructor", "=" + NASTY, "x", "y")
    records.transaction(NASTY_WORD, 1, NASTY, START, (130000, START + 1, "Local", NASTY))
    records.transaction(NASTY_WORD, 2, NASTY, START, None, NASTY_WORD)
    records.rows[f"transactions {NASTY_WORD}"].append(f"transaction {NASTY_WORD} 3 x - Y x y z 5 z - -")
    for number in (1, 2):
        records.reading(NASTY_WORD, number, START, "Voltage", "-", "V", 230000000, NASTY)
        records.reading(NASTY_WORD, number, "x", "SoC", "-", "V", "y", "232")
        records.reading(NASTY_WORD, number, START, "-", "-", "-", 5, "5")
        records.reading(NASTY_WORD, number, START + 60000, "<svg/onload=window.ran=1>", "<b>", "<i>V</i>", 231000000, "231")
    return records


def turned_records():
    """Texts that would turn the direction of what stands beside them."""
    records = Records()
    records.station("EAST-01", boot={**BOOT, "chargePointVendor": TURNED, "chargePointModel": HEBREW}, calls=0)
    records.reader("EAST-01", TURNED)
    records.connector("EAST-01", 1, "Available", "NoError", TURNED, HEBREW, None)
    records.transaction("EAST-01", 1, TURNED, BEGUN)
    records.tag(TURNED, HEBREW)
    records.tag(HEBREW)
    return records
