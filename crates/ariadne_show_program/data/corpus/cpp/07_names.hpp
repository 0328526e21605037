namespace names {
/* 漢 */ int grüße(int zähler);
}
