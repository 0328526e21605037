program pears;
var
  weight, unused: integer;
begin
  weight := 'one';
	{ é } writeln(wieght);
end.
