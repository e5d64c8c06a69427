with Ada.Text_IO;
procedure Main is
procedure Bound (N : in out Integer; Most : Integer) is
begin
if N <= Most then return; end if;
loop N := N - 1; if N = Most then return; end if; end loop;
end Bound;
X : Integer := 30; Y : Integer := 2;
begin Bound (X, 9); Bound (Y, 9); Ada.Text_IO.Put_Line (Integer'Image (X)); Ada.Text_IO.Put_Line (Integer'Image (Y)); end Main;
