with Ada.Finalization; with Ada.Text_IO;
procedure Main is
   type Cell is record Value : Integer := 2; end record;
   type Link is access Cell;
   type Count is new Ada.Finalization.Limited_Controlled with record Value : Integer := 2; end record;
   overriding procedure Finalize (Object : in out Count);
   overriding procedure Finalize (Object : in out Count) is
      Mine : Link;
   begin
      Ada.Text_IO.Put_Line (Integer'Image (Object.Value));
      if Object.Value > 0 and then Mine = null then
         declare
            C : Count;
         begin
            C.Value := Object.Value - 1;
         end;
      end if;
   exception
      when Constraint_Error => null;
   end Finalize;
   C : Count;
begin
   null;
end Main;
