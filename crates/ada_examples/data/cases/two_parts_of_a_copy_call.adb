with Ada.Finalization; with Ada.Text_IO;
procedure Main is
   type Bell is new Ada.Finalization.Controlled with record Sound : Integer := 4; end record;
   overriding procedure Adjust (Object : in out Bell);
   type Door is new Ada.Finalization.Controlled with record Left : Bell; Right : Bell; Open : Boolean := False; end record;
   overriding procedure Adjust (Object : in out Door);
   procedure Ring (Sound : Integer) is
   begin
      Ada.Text_IO.Put_Line (Integer'Image (Sound));
   end Ring;
   overriding procedure Adjust (Object : in out Bell) is
   begin
      Ring (Object.Sound);
   end Adjust;
   overriding procedure Adjust (Object : in out Door) is
   begin
      Ring (3);
      Object.Open := True;
   end Adjust;
   procedure Paint is
      One : Door;
      Two : Door := One;
   begin
      if Two.Open then
         One := Two;
      end if;
   end Paint;
begin
   Paint;
end Main;
