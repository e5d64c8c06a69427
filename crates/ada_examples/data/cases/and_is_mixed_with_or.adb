procedure Main is
B : Boolean := True;
begin
B := B and B or B;
end Main;
