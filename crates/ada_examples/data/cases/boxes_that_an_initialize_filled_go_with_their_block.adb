with Ada.Finalization; with Ada.Text_IO; with Ada.Unchecked_Deallocation; with Profile_Pools;
procedure Main is
   type Cell is record Value : Integer := 7; end record;
   Room : Profile_Pools.First_Fit_Pool (10);
   type Ref is access Cell with Storage_Pool => Room;
   procedure Free is new Ada.Unchecked_Deallocation (Cell, Ref);
   type Box is new Ada.Finalization.Limited_Controlled with record Item : Ref; end record;
   overriding procedure Initialize (Object : in out Box);
   overriding procedure Finalize (Object : in out Box);
   procedure Fill (Item : in out Ref) is
   begin
      Item := new Cell;
   end Fill;
   overriding procedure Initialize (Object : in out Box) is
      Made : Ref;
   begin
      Fill (Made);
      Object.Item := Made;
   end Initialize;
   overriding procedure Finalize (Object : in out Box) is
   begin
      if Object.Item /= null then
         Ada.Text_IO.Put_Line (Integer'Image (Object.Item.Value));
      end if;
      Free (Object.Item);
   exception
      when Constraint_Error => null;
   end Finalize;
begin
   for I in 1 .. 2 loop
      declare
         type Box_Link is access Box;
         A : Box_Link := new Box;
         B : Box_Link := new Box;
      begin
         A.Item.Value := I;
         B.Item.Value := I + 10;
      end;
      Ada.Text_IO.Put_Line ("left");
   end loop;
end Main;
