with Ada.Text_IO;
procedure Main is
procedure Deep (N : in out Integer; B : in out Boolean) is
begin declare Y : Integer := N; begin loop Y := Y + 1; if Y > 8 then N := Y; B := True; return; end if; end loop; end; end Deep;
X : Integer := 5; Found : Boolean := False;
begin Deep (X, Found); if Found then Ada.Text_IO.Put_Line (Integer'Image (X)); end if; end Main;
