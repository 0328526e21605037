auto a = "😀" + "😀"; /* 😀 */ int b = missing;
	auto c = "漢😀" + nowhere; /* 😀 */ int d = missing;
