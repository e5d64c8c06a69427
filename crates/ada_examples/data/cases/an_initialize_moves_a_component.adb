with Ada.Finalization; with Ada.Text_IO; with Ada.Unchecked_Deallocation;
procedure Main is
   type Cell is record Value : Integer := 1; end record;
   type Link is access Cell;
   type Holder is new Ada.Finalization.Limited_Controlled with record Front : Link; Back : Link; end record;
   overriding procedure Initialize (Object : in out Holder);
   overriding procedure Finalize (Object : in out Holder);
   procedure Free is new Ada.Unchecked_Deallocation (Cell, Link);
   overriding procedure Initialize (Object : in out Holder) is
   begin
      Object.Front := new Cell'(Value => 3);
      Object.Back := Object.Front;
      Object.Front := null;
      Object.Front := new Cell;
      Object.Back.Value := Object.Back.Value + Object.Front.Value;
   exception
      when Storage_Error => Ada.Text_IO.Put_Line ("no cell");
      when Constraint_Error => Ada.Text_IO.Put_Line ("no value");
   end Initialize;
   overriding procedure Finalize (Object : in out Holder) is
   begin
      Ada.Text_IO.Put_Line (Integer'Image (Object.Back.Value));
      Free (Object.Back);
      Ada.Text_IO.Put_Line (Integer'Image (Object.Front.Value));
      Free (Object.Front);
   exception
      when Constraint_Error => Ada.Text_IO.Put_Line ("nothing");
   end Finalize;
   H : Holder;
begin
   Free (H.Front);
end Main;
