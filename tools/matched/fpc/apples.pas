program apples;
procedure weigh;
var
  unused: integer;
begin
end;
begin
  weigh
end.
