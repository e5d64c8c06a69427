with Ada.Finalization; with Ada.Text_IO; with Run_Input;
procedure Main is
Out_Of_Order : exception;
type Counter is new Ada.Finalization.Controlled with record Total : Integer := 3; Even : Boolean := True; end record;
overriding procedure Finalize (Object : in out Counter);
overriding procedure Finalize (Object : in out Counter) is
Last : Integer := Object.Total;
begin
for I in 1 .. Last loop
declare
Odd : Boolean := I mod 2 = 1;
begin
Object.Even := not Odd;
if Object.Even then Ada.Text_IO.Put_Line (Integer'Image (I));
else null; end if;
exit when I = 2;
end;
end loop;
while Last > 0 and then Object.Total > 0 loop
Run_Input.Get (Last);
Object.Total := Object.Total - 1;
if Last < 0 then raise Out_Of_Order; end if;
end loop;
exception
when Out_Of_Order =>
Ada.Text_IO.Put_Line ("out of order");
return;
when others => null;
end Finalize;
begin
declare C : Counter; begin null; end;
end Main;
