# jq -s -r -f scripts/trials/page.jq: the page of the objects of `mflive --json`
{"1": "700+900", "2": "700+1100", "3": "900+1100", "4": "700+1300", "5": "900+1300", "6": "1100+1300", "7": "700+1500",
 "8": "900+1500", "9": "1100+1500", "0": "1300+1500", KP: "1100+1700", ST: "1500+1700"} as $tones
| def four: "000\(.)"[-4:];
(.[:-1] | sort_by(.line, .entry)[] | "\(.line | four) \(.entry) \(.outcome) " + if .outcome == "KEYED"
    then "\(.trunk | four) " + ([.keys[] | "\(.):\($tones[.])"] | join(" ")) else "\(.reason) \(.heard)" end),
(.[-1] | "KEYED \(.keyed) REFUSED \(.refused)")
