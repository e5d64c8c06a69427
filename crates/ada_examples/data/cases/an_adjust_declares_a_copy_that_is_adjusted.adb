with Ada.Finalization; with Ada.Text_IO; with Ada.Unchecked_Deallocation;
procedure Main is
   type Mark is record Value : Integer := 1; end record;
   type Link is access Mark;
   procedure Free is new Ada.Unchecked_Deallocation (Mark, Link);
   type Inner is new Ada.Finalization.Controlled with record Value : Integer := 4; end record;
   overriding procedure Adjust (Object : in out Inner);
   type Outer is new Ada.Finalization.Controlled with record Part : Inner; Sum : Integer := 0; end record;
   overriding procedure Adjust (Object : in out Outer);
   overriding procedure Adjust (Object : in out Inner) is
      M : Link;
   begin
      Object.Value := Object.Value + 1;
      M := new Mark;
      Free (M);
   exception
      when Constraint_Error | Storage_Error => Object.Value := 0;
   end Adjust;
   overriding procedure Adjust (Object : in out Outer) is
   begin
      declare
         Twin : Inner := Object.Part;
         Third : Inner := Twin;
      begin
         Object.Sum := Third.Value;
      end;
   exception
      when Constraint_Error => Object.Sum := 0;
   end Adjust;
   First : Outer;
   Second : Outer := First;
begin
   Ada.Text_IO.Put_Line (Integer'Image (Second.Part.Value));
   Ada.Text_IO.Put_Line (Integer'Image (Second.Sum));
   First := Second;
   Ada.Text_IO.Put_Line (Integer'Image (First.Sum));
end Main;
