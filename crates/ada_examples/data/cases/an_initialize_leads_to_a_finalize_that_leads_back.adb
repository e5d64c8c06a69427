with Ada.Finalization; with Ada.Text_IO;
procedure Main is
   type First is new Ada.Finalization.Limited_Controlled with record Value : Integer := 1; end record;
   type Second is new Ada.Finalization.Limited_Controlled with record Value : Integer := 2; end record;
   overriding procedure Initialize (Object : in out First);
   overriding procedure Finalize (Object : in out Second);
   overriding procedure Initialize (Object : in out First) is
      S : Second;
   begin
      Object.Value := S.Value;
   end Initialize;
   overriding procedure Finalize (Object : in out Second) is
      F : First;
   begin
      F.Value := Object.Value;
   end Finalize;
   F : First;
begin
   Ada.Text_IO.Put_Line (Integer'Image (F.Value));
end Main;
