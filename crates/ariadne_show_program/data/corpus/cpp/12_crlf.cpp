int f(int a,
      int b)
{
    return a +
        missing;
}
// last: no line feed
int g() { return f(1); }