class Pairs {
    int a = /* 漢字 é */ apple;
    int b = /* 🍐🍎 */ cedar;
	int c = /* 🍐 漢 é */	delta;
    String d = "🍐" + elder + "𝒻";
    int 𝒻 = "🍐𝒻";
    String größe = fig(𝒻, "🍐") + grape;
}
