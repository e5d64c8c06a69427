with Ada.Finalization; with Ada.Text_IO;
procedure Main is
   type Level is new Ada.Finalization.Controlled with record Depth : Integer := 0; end record;
   overriding procedure Finalize (Object : in out Level);
   procedure Leave (Depth : in out Integer) is
   begin
      Ada.Text_IO.Put_Line (Integer'Image (Depth));
      Depth := 0;
   end Leave;
   overriding procedure Finalize (Object : in out Level) is
   begin
      Leave (Object.Depth);
   end Finalize;
   Outer : Level;
begin
   Outer.Depth := 1;
   for I in 2 .. 3 loop
      declare
         Inner : Level := Outer;
         Other : Level;
      begin
         Inner.Depth := 10 * I;
         Other := Inner;
         Outer := Other;
         Ada.Text_IO.Put_Line ("end of the block");
      end;
   end loop;
   Ada.Text_IO.Put_Line ("end of the program");
end Main;
