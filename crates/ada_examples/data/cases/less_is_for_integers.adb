procedure Main is
B : Boolean := True;
begin
B := True < False;
end Main;
